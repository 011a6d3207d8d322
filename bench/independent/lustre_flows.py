"""The flows of a Lustre file over rows of numbers, by demand: a name's value is asked for where
something needs it.

Written from the rules of the dialect and not from the compiler. Numbers are whole numbers of 64
signed bits, and truth values are Python's. Ticks are counted from 0, lines from 1. An instance is a
path: the places of calls among the equations of their nodes, from the last node on."""

from lustre_text import Call, Set

LEAST, GREATEST = -(2**63), 2**63 - 1


class Failed(Exception):
    """An expression whose names have values and that has none itself; holds why: `Overflow`,
    `ZeroDivisor` or `Pre`."""


class Waits(Exception):
    """An expression that reads a name without a value."""


class Stuck(Exception):
    """A tick in which some name has no value; holds the line and why."""


def in_range(number):
    """A number that 64 bits hold."""
    if not LEAST <= number <= GREATEST:
        raise Failed("Overflow")
    return number


def quotient(left, right):
    """The quotient towards 0, which `mod` asks for too."""
    if right == 0:
        raise Failed("ZeroDivisor")
    size = abs(left) // abs(right)
    return in_range(size if (left < 0) == (right < 0) else -size)


BINARY = {
    "+": lambda a, b: in_range(a + b),
    "-": lambda a, b: in_range(a - b),
    "*": lambda a, b: in_range(a * b),
    "div": quotient,
    "mod": lambda a, b: a - b * quotient(a, b),
    "=": lambda a, b: a == b,
    "<>": lambda a, b: a != b,
    "<": lambda a, b: a < b,
    "<=": lambda a, b: a <= b,
    ">": lambda a, b: a > b,
    ">=": lambda a, b: a >= b,
    "and": lambda a, b: a and b,
    "or": lambda a, b: a or b,
}


class Flows:
    """The flows of a file's nodes. `before` has the values of the last tick by path and name."""

    def __init__(self, nodes):
        self.nodes, self.root = {it.name: it for it in nodes}, nodes[-1]
        self.tick, self.before = 0, {}

    def row(self, inputs):
        """The numbers of the outputs, where these are the inputs of the next tick."""
        now = Tick(self, inputs)
        values = now.all_values()
        self.tick, self.before = self.tick + 1, values
        return [values[(), it.name] for it in self.root.outputs]

    def instances(self, path=(), node=None):
        """Each path with its node, one around before those inside, and these in their order."""
        node = node or self.root
        yield path, node
        for place, it in enumerate(node.equations):
            if isinstance(it, Call):
                yield from self.instances((*path, place), self.nodes[it.node])


class Tick:
    """One tick. `found` has the value of each path and name that was asked for, or None where it
    has none; a name that is asked for while its value is being found has none either."""

    def __init__(self, flows, inputs):
        self.flows, self.found = flows, {}
        self.node_of = dict(flows.instances())
        for it, number in zip(flows.root.inputs, inputs):
            self.found[(), it.name] = number

    def all_values(self):
        """The values of all names, unless the tick is stuck."""
        names = [(path, it.name) for path, node in self.node_of.items() for it in node.declared]
        for path, name in names:
            self.value_of(path, name)
        if any(self.found[it] is None for it in names):
            raise Stuck(*self.place())
        return {it: self.found[it] for it in names}

    def value_of(self, path, name):
        """The value of a name, or None."""
        if (path, name) not in self.found:
            self.found[path, name] = None
            self.found[path, name] = self.asked(path, name)
        return self.found[path, name]

    def asked(self, path, name):
        """What gives a name its value: an argument around, an expression, or an output inside."""
        node = self.node_of[path]
        inputs = [it.name for it in node.inputs]
        if name in inputs:
            around = self.node_of[path[:-1]].equations[path[-1]]
            return self.result(path[:-1], around.values[inputs.index(name)])
        place, it = next(row for row in enumerate(node.equations) if name in row[1].names)
        if isinstance(it, Set):
            return self.result(path, it.value)
        callee = self.flows.nodes[it.node]
        return self.value_of((*path, place), callee.outputs[it.names.index(name)].name)

    def result(self, path, value):
        """The value of an expression in an instance, or None."""
        try:
            return self.evaluated(path, value)
        except (Failed, Waits):
            return None

    def evaluated(self, path, value):
        """The value of an expression in an instance. The left side comes first."""
        kind, parts = value.kind, value.parts
        if kind in ("number", "truth"):
            return parts[0]
        if kind == "name":
            found = self.value_of(path, parts[0])
            if found is None:
                raise Waits
            return found
        if kind == "pre":
            if self.flows.tick == 0:
                raise Failed("Pre")
            return self.flows.before[path, parts[0]]
        if kind == "if":
            return self.evaluated(path, parts[1 if self.evaluated(path, parts[0]) else 2])
        if kind == "->":
            return self.evaluated(path, parts[min(self.flows.tick, 1)])
        left, *right = [self.evaluated(path, it) for it in parts]
        if kind == "not":
            return not left
        return BINARY[kind](left, *right) if right else in_range(-left)

    def place(self):
        """The line where a stuck tick is told, and why."""
        failures, waiting = [], []
        for path, node in self.node_of.items():
            for it in node.equations:
                failures += [(it.line, why) for why in map(self.why(path), it.values) if why]
                if any(self.found[path, name] is None for name in it.names):
                    waiting.append((it.line, "Cycle"))
        return min(failures or waiting, key=lambda row: row[0])

    def why(self, path):
        """Why an expression of an instance fails, or None."""

        def of(value):
            """What an expression fails with, or None."""
            try:
                self.evaluated(path, value)
            except Failed as failure:
                return failure.args[0]
            except Waits:
                pass
            return None

        return of


def run(nodes, rows):
    """The rows of outputs, and the line and why where the flows are stuck after them, or None."""
    flows, given = Flows(nodes), []
    for it in rows:
        try:
            given.append(flows.row(it))
        except Stuck as stuck:
            return given, stuck.args
    return given, None
