"""What the rows of an accepted model give over a trace, by the rules of docs/FORMATS.md."""

from fractions import Fraction
from math import ceil, floor, prod

from model_rows import WITHOUT_VALUE
from model_values import BLANKS, BOOLEAN, bounds, number, quantize, whole
from model_wires import gain_constant

ROUNDINGS = {
    b"Floor": floor,
    b"Ceiling": ceil,
    b"Zero": int,
    b"Nearest": lambda exact: floor(exact + Fraction(1, 2)),
    b"Round": lambda exact: floor(exact + Fraction(1, 2)) if exact >= 0 else ceil(exact - Fraction(1, 2)),
    b"Convergent": round,
}
COMPARISONS = {
    b"==": lambda a, b: a == b,
    b"~=": lambda a, b: a != b,
    b"<": lambda a, b: a < b,
    b"<=": lambda a, b: a <= b,
    b">=": lambda a, b: a >= b,
    b">": lambda a, b: a > b,
}
TRUTHS = {
    b"AND": all,
    b"OR": any,
    b"NAND": lambda it: not all(it),
    b"NOR": lambda it: not any(it),
    b"XOR": lambda it: sum(it) % 2 == 1,
    b"NXOR": lambda it: sum(it) % 2 == 0,
    b"NOT": lambda it: not it[0],
}


LOW, HIGH = "low", "high"


class Run:
    """A run of a model, or of one of its systems by itself, tick by tick. Of the subsystems around a row only that of the system and those
    inside count, and what holds the system is active. `calls` counts those of output and update functions."""

    def __init__(self, model, system=None):
        self.system, self.now, self.calls = system or model.root, 0, 0
        rows, owner = self.system.all_rows(), self.system.owner
        self.order = in_order(self.system)
        # Its Inports by port, and then the names of its controls.
        self.inputs = [*self.system.ports(b"Inport"), *self.system.controls()]
        self.before = {row: first_value(row) for row in rows}
        self.memories = {row: first_memory(row) for row in rows if row.delays}
        # Whether a subsystem's trigger was low or high; None at first.
        self.triggers = dict.fromkeys(it for it in [owner, *rows] if it and "trigger" in it.sources)

    def control(self, e, name):
        """The number that a control of a subsystem, `enable` or `trigger`, has at this tick."""
        return self.columns[name] if e is self.system.owner else self.values[e.sources[name]]

    def around(self, row):
        """The subsystems around a row that count here, the inmost first."""
        return [e for e in row.around() if e is self.system.owner or e in self.system.inside]

    def is_active(self, e):
        """Whether a subsystem is active, or the root, which is None; by the controls of this tick."""
        if e is None:
            return True
        is_enabled = "enable" not in e.sources or self.control(e, "enable") > 0
        return self.is_held_active(e) and is_enabled and ("trigger" not in e.sources or self.is_event(e, self.control(e, "trigger") > 0))

    def is_held_active(self, e):
        """Whether the system that holds a subsystem is active."""
        return e is self.system.owner or self.is_active(e.owner)

    def is_event(self, e, is_high):
        """Whether the trigger of a subsystem, high or not at this tick, starts it."""
        rises, falls = self.triggers[e] == LOW and is_high, self.triggers[e] == HIGH and not is_high
        port = e.system.of_kind(b"TriggerPort")[0]
        return {b"rising": rises, b"falling": falls, b"either": rises or falls}[port.text("TriggerType")]

    def is_disabled(self, e):
        """Whether a subsystem is switched off by its own enable."""
        return e is not None and "enable" in e.sources and self.is_held_active(e) and self.control(e, "enable") <= 0

    def is_off(self, e):
        """Whether a subsystem is switched off and forgets its states."""
        return self.is_disabled(e) and e.system.of_kind(b"EnablePort")[0].text("StatesWhenEnabling") == b"reset"

    def runs(self, row):
        """Whether a row has a hit of its sample time at this tick, in a system that is active."""
        return self.now % row.time[0] == row.time[1] and self.is_active(row.owner)

    def settle(self, numbers):
        """Gives each row its value for the inputs of this tick."""
        self.columns, self.values = dict(zip(self.inputs, numbers)), dict(self.before)
        for row in self.order:
            if row.is_kind(b"Outport") and row.text("OutputWhenDisabled") == b"reset" and self.is_disabled(row.owner):
                self.values[row] = first_value(row)
            elif not row.is_kind(*WITHOUT_VALUE) and self.runs(row):
                memory = self.memories.get(row)
                self.values[row] = self.columns[row] if row in self.columns else memory[0] if memory else value_of(row, self.values)

    def tick(self, numbers):
        """The line of outputs for a row of the trace."""
        self.settle(numbers)
        line = " ".join(str(self.values[row]) for row in self.system.ports(b"Outport"))
        systems = [it for it in self.system.all_systems() if it is self.system or self.is_active(it.owner.owner)]
        self.calls += sum(it.functions() + 1 for it in systems)
        memories = {row: self.memory_after(row) for row in self.memories}
        self.triggers = {e: self.trigger_after(e) for e in self.triggers}
        self.memories, self.before = memories, self.values
        self.now += 1
        return line

    def memory_after(self, row):
        """The samples of a delay after a tick."""
        if any(map(self.is_off, self.around(row))):
            return first_memory(row)
        return [*self.memories[row][1:], self.values[row.sources[1]]] if self.runs(row) else self.memories[row]

    def trigger_after(self, e):
        """What the trigger of a subsystem remembers after a tick."""
        if any(map(self.is_off, self.around(e))):
            return None
        if self.is_held_active(e):
            return HIGH if self.control(e, "trigger") > 0 else LOW
        return self.triggers[e]


def first_value(row):
    """The value of a row before the first tick."""
    if row.delays:
        return first_memory(row)[0]
    is_held = row.is_kind(b"Outport") and row.owner and row.owner.sources
    return quantize(number(row.text("InitialOutput")), row.type) if is_held and row.text("InitialOutput").strip(BLANKS) != b"[]" else 0


def first_memory(row):
    """The samples of a delay before the first tick."""
    start = quantize(number(row.text("InitialCondition")), row.type)
    return [start] * (whole(row.text("DelayLength")) if row.is_kind(b"Delay") else 1)


def in_order(system):
    """The rows of a system, each behind those that it needs."""
    done, order = set(), []

    def put(row):
        """Adds a row after all that it needs."""
        todo = [row]
        while todo:
            missing = [it for it in system.needs_of(todo[-1]) if it not in done]
            if missing:
                todo += missing
            else:
                row = todo.pop()
                order.extend([row] if row not in done else [])
                done.add(row)

    for row in system.all_rows():
        put(row)
    return order


def value_of(row, values):
    """What a row without memory computes from its inputs."""
    sources = [row.sources[it] for it in sorted(row.sources)]
    inputs = [values[it] for it in sources]
    types = [BOOLEAN if it.is_kind(b"Ground") else it.type for it in sources]
    exact = [Fraction(value, 2 ** type[2]) for value, type in zip(inputs, types)]
    if row.is_kind(b"Constant"):
        return quantize(number(row.text("Value")), row.type)
    if row.is_kind(b"Ground"):
        return 0
    if row.is_kind(b"Gain"):
        constant, point = gain_constant(row)
        return converted(row, exact[0] * Fraction(constant, 2**point))
    if row.is_kind(b"Sum"):
        signs = [it for it in row.text("Inputs") if it in b"+-"] if whole(row.text("Inputs")) is None else [43] * len(exact)
        return converted(row, sum(value if sign == 43 else -value for sign, value in zip(signs, exact)))
    if row.is_kind(b"Product"):
        return converted(row, prod(exact))
    if row.is_kind(b"Switch"):
        level = quantize(number(row.text("Threshold")), types[1])
        passes = {b"u2 >= Threshold": inputs[1] >= level, b"u2 > Threshold": inputs[1] > level, b"u2 ~= 0": inputs[1] != 0}
        return converted(row, exact[0] if passes[row.text("Criteria")] else exact[2])
    if row.is_kind(b"RelationalOperator"):
        return int(COMPARISONS[row.text("Operator")](*exact))
    if row.is_kind(b"Logic"):
        return int(TRUTHS[row.text("Operator")]([it != 0 for it in inputs]))
    return converted(row, exact[0]) if row.is_kind(b"DataTypeConversion") else inputs[0]


def converted(row, exact):
    """The exact number brought into the type of the row."""
    rounded = ROUNDINGS[row.text("RndMeth")](exact * 2 ** row.type[2])
    least, greatest = bounds(row.type)
    if row.text("SaturateOnIntegerOverflow") == b"on":
        return min(max(rounded, least), greatest)
    return (rounded - least) % 2 ** row.type[1] + least
