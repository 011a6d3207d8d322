"""What a system of a model gives where its functions are called one by one, by the rules of docs/FORMATS.md."""

from math import lcm

from code_rules import Machine, rules_of
from model_rows import CONTROL_NAMES
from model_runs import Run
from model_values import BOOLEAN, bounds, whole
from scripts import Refused, call_of, lines_of


def systems_of(model):
    """The systems of a model by the words that name them."""
    return {"top": model.root} | {str(at): row.system for at, row in enumerate(model.rows) if row.system}


class Input:
    """An input of a system: `port` is its Inport, or the name of the control."""

    def __init__(self, system, port):
        is_control = port in CONTROL_NAMES
        row = system.owner.sources[port] if is_control else port
        self.name = port if is_control else whole(port.text("Port"))
        self.port, self.type = port, BOOLEAN if row.is_kind(b"Ground") else row.type


class Interface:
    """What a system is called with: its inputs by port and then its controls, and its output functions."""

    def __init__(self, system):
        self.inputs = [Input(system, it) for it in [*system.ports(b"Inport"), *system.controls()]]
        self.profile = system.profile

    def inputs_of(self, function):
        """The inputs that a function takes; all of them for the update, which is None."""
        return [it for it in self.inputs if function is None or it.port in CONTROL_NAMES or it.port in self.profile[function - 1][0]]


class Code:
    """The code of a system, called by itself in a machine that has run `root_start`."""

    def __init__(self, model, system, code):
        self.machine, self.rows = Machine(rules_of(code)), {row: at for at, row in enumerate(model.rows)}
        self.cycle = lcm(*(row.ticks[0] for row in model.rows if row.ticks))
        self.machine.call("root_start", self.machine.root, [])
        self.machine.steps = self.machine.calls = 0
        path = [] if system.owner is None else [f"s{self.rows[it]}" for it in [*reversed(system.owner.around()), system.owner]]
        self.name, self.fields = (["top", *path])[-1], self.machine.root["top"]
        for it in path:
            self.fields = self.fields[it]

    def call(self, function, tick, numbers):
        """Calls an output function by its number, or the update where that is None, at a tick."""
        procedure = f"{self.name}_update" if function is None else f"{self.name}_out{function}"
        self.machine.call(procedure, self.fields, [tick % self.cycle, *numbers])

    def value(self, row):
        """The value of a row, as the code holds it."""
        return self.fields[f"v{self.rows[row]}"]


class Drive(Interface):
    """A system that is driven: `given` has the values that this tick has so far, and `called` the functions."""

    def __init__(self, model, system, code):
        super().__init__(system)
        self.run, self.code = Run(model, system), Code(model, system, code)
        self.given, self.called = {}, set()

    def judge(self, function, numbers):
        """The values by their inputs, for a call that is lawful now."""
        if function is not None and not 1 <= function <= len(self.profile):
            raise Refused(f"NoFunction {function}")
        inputs = self.inputs_of(function)
        if len(numbers) != len(inputs):
            raise Refused(f"Count {len(numbers)}")
        if function in self.called:
            raise Refused(f"Twice {function}")
        missing = [it for it in range(1, len(self.profile) + 1) if it not in self.called]
        if function is None and missing:
            raise Refused(" ".join(map(str, ["Early", *missing])))
        values = dict(zip(inputs, numbers))
        for it, value in values.items():
            if not bounds(it.type)[0] <= value <= bounds(it.type)[1]:
                raise Refused(f"Value {it.name}")
        for it, value in values.items():
            if value != self.given.get(it, value):
                raise Refused(f"Unlike {it.name} {self.given[it]} {value}")
        return values

    def call(self, function, numbers):
        """The line that a call puts, or nothing for the update."""
        self.given |= self.judge(function, numbers)
        self.code.call(function, self.run.now, numbers)
        if function is None:
            self.run.tick([self.given[it] for it in self.inputs])
            self.given, self.called = {}, set()
            return ""
        self.called.add(function)
        # No output of the function needs a value that isn't given yet, so that may be any.
        self.run.settle([self.given.get(it, bounds(it.type)[1]) for it in self.inputs])
        outputs = self.profile[function - 1][1]
        values = [self.run.values[it] for it in outputs]
        assert values == [self.code.value(it) for it in outputs], "the code gives other values"
        return " ".join(map(str, ["out", function, *values])) + "\n"

    def totals(self):
        """The last line: ticks, steps and calls."""
        machine = self.code.machine
        assert self.called or machine.calls == self.run.calls, "the code makes other calls"
        return f"ticks {self.run.now} steps {machine.steps} calls {machine.calls}\n"


def driven(model, code, word, script):
    """The status and the text of a drive; `code` is the code of the model."""
    system, text = systems_of(model).get(word), ""
    if system is None:
        return 4, "script line 0 NoSubsystem\n"
    drive = Drive(model, system, code)
    for number, line in enumerate(lines_of(script), 1):
        try:
            text += drive.call(*call_of(line))
        except Refused as why:
            return 4, f"{text}script line {number} {why}\n"
    return 0, text + drive.totals()
