"""What the rules of docs/FORMATS.md say of a C text: its first fault, or what its program gives over a trace.

Written from the rules and not from the compiler, so that the two can be compared. Plain and slow, and without the limits on
depth and number."""

import re
from functools import lru_cache
from itertools import count, takewhile
from operator import eq, ge, gt, le, lt, ne

from code_text import FIRST_LINE, GREATEST, LEAST, TYPES, first_stray, last_line, tokens_of
from code_trees import If, Proc, Pure, Reader, Store, uses

COMPARISONS = {"==": eq, "!=": ne, "<": lt, "<=": le, ">": gt, ">=": ge}

# In one construct a rule on names comes before a rule on types.
NAME, TYPE = (0, "Name"), (1, "Type")


class Rules:
    """The faults of a text that keeps the grammar, each with the number of its construct's first token."""

    def __init__(self, text):
        self.faults, self.functions, self.structs = [], {}, {}
        for it in text.pures:
            self.pure(it)
        for it in text.structs:
            self.struct(it)
        for it in text.procs:
            self.proc(it)

    def check(self, at, kind, is_kept):
        """Notes an error of this kind at a token where the rule isn't kept."""
        if not is_kept:
            self.faults.append((at, kind))

    def define(self, function):
        """Makes a pure function or a procedure known; the first of a name counts."""
        self.functions.setdefault(function.name, function)

    def known(self, name, kind):
        """The function of this name that was defined so far, where it is of this class, or None."""
        found = self.functions.get(name)
        return found if isinstance(found, kind) else None

    def params(self, params):
        """Checks parameters; the set of their names."""
        for number, it in enumerate(params):
            self.check(it.at, NAME, it.name not in self.functions and it.name not in [other.name for other in params[:number]])
        return {it.name for it in params}

    def pure(self, pure):
        """The rules of a pure function."""
        self.check(pure.at, NAME, pure.name not in self.functions)
        self.value(pure.value, self.params(pure.params), None)
        self.define(pure)

    def struct(self, struct):
        """The rules of a struct and its fields."""
        self.check(struct.at, NAME, struct.name not in self.structs)
        fields = {}
        for it in struct.fields:
            self.check(it.at, NAME, it.name not in fields and (it.type != "struct" or it.struct in self.structs))
            self.check(it.at, TYPE, it.length is None or 1 <= it.length <= 65_535)
            fields.setdefault(it.name, it)
        if struct.name == "root" and "root" not in self.structs:
            outputs = outputs_of(struct.fields)
            for it in struct.fields:
                self.check(it.at, TYPE, not re.fullmatch("y[0-9]+", it.name) or is_number(it) and it.name in outputs)
        self.structs.setdefault(struct.name, fields)

    def proc(self, proc):
        """The rules of a procedure."""
        self.check(proc.at, NAME, proc.name not in self.functions and proc.struct in self.structs)
        if proc.name == "root_start":
            self.check(proc.at, TYPE, proc.struct == "root" and not proc.params)
        if proc.name == "root_step":
            self.check(proc.at, TYPE, proc.struct == "root" and all(it.type != "int64_t" for it in proc.params))
        self.body(proc.body, self.params(proc.params), self.structs.get(proc.struct, {}), proc.struct)
        self.define(proc)

    def body(self, body, params, fields, struct):
        """Checks statements in a procedure on this struct; `params` are names, `fields` fields by their names."""
        for it in body:
            if isinstance(it, Store):
                self.check(it.at, NAME, it.field in fields)
                field = fields.get(it.field)
                is_right = field is not None and field.type == it.type and is_array(field) == (it.index is not None)
                self.check(it.at, TYPE, is_right)
                for value in (it.index, it.value) if it.index else (it.value,):
                    self.value(value, params, fields)
            elif isinstance(it, If):
                self.value(it.test, params, fields)
                self.body(it.then, params, fields, struct)
                self.body(it.other, params, fields, struct)
            else:
                self.call(it, fields, struct)
                for value in it.values:
                    self.value(value, params, fields)

    def call(self, call, fields, struct):
        """Checks a call in a procedure on this struct, but for its values."""
        proc = self.known(call.name, Proc)
        self.check(call.at, NAME, proc and (call.field is None or call.field in fields))
        if proc:
            # A number field holds no struct.
            target = struct if call.field is None else fields[call.field].struct if call.field in fields else None
            self.check(call.at, TYPE, target == proc.struct and call.types == [it.type for it in proc.params])

    def value(self, value, params, fields):
        """Checks all that an expression or a test uses; `fields` is None in a pure function."""
        for it in uses(value):
            if it[0] == "call":
                pure = self.known(it[2], Pure)
                self.check(it[1], NAME, pure)
                self.check(it[1], TYPE, pure and len(pure.params) == len(it[3]))
            else:
                self.leaf(*it[1:], params, fields)

    def leaf(self, at, param, name, inner, index, params, fields):
        """`fields` is None in a pure function."""
        if param is not None:
            return self.check(at, NAME, param in params)
        if fields is None or name not in fields:
            return self.check(at, NAME, False)
        if index is not None:
            return self.check(at, TYPE, is_array(fields[name]))
        if inner is None or fields[name].type != "struct":
            return self.check(at, TYPE, inner is None and is_number(fields[name]))
        within = self.structs.get(fields[name].struct, {})
        self.check(at, NAME, inner in within)
        self.check(at, TYPE, inner in within and is_number(within[inner]))

    def is_whole(self):
        """Whether all that a file must have is there."""
        return "root" in self.structs and all(self.known(it, Proc) for it in ("root_start", "root_step"))


def is_array(field):
    """Whether a field is an array."""
    return field.length is not None


def is_number(field):
    """Whether a field is one number."""
    return field.type != "struct" and not is_array(field)


def outputs_of(fields):
    """The names of the outputs among the fields of `struct root`, in order."""
    numbers = {it.name for it in fields if is_number(it)}
    return list(takewhile(numbers.__contains__, (f"y{number}" for number in count(1))))


class Stuck(Exception):
    """Holds the line and the cause."""


class Machine:
    """Runs procedures on instances, and counts steps and calls."""

    def __init__(self, rules):
        self.functions, self.structs = rules.functions, rules.structs
        self.root, self.steps, self.calls = self.fields("root"), 0, 0

    def fields(self, struct):
        """A new struct of this name: numbers, lists and dictionaries by the names of its fields, all numbers 0."""
        return {name: self.at_first(it) for name, it in self.structs[struct].items()}

    def at_first(self, field):
        """What a field holds in a new struct."""
        return self.fields(field.struct) if field.type == "struct" else [0] * field.length if is_array(field) else 0

    def within(self, number, bounds, line, cause):
        """The number, which must be within bounds, the least and the greatest; else the line is stuck by this cause."""
        if not bounds[0] <= number <= bounds[1]:
            raise Stuck(line, cause)
        return number

    def value(self, value, fields, params, line):
        """The number that an expression of this line has over fields and parameters, both by their names."""
        kind, *parts = value
        if kind == "number":
            return parts[0]
        if kind == "leaf":
            _, param, name, inner, index = parts
            if index is not None:
                return fields[name][self.place(fields[name], index, fields, params, line)]
            return params[param] if param is not None else fields[name] if inner is None else fields[name][inner]
        if kind == "minus":
            return self.within(-self.value(parts[0], fields, params, line), (LEAST, GREATEST), line, "Overflow")
        if kind == "conditional":
            return self.value(parts[1] if self.test(parts[0], fields, params, line) else parts[2], fields, params, line)
        if kind == "call":
            return self.pure(self.functions[parts[1]], [self.value(it, fields, params, line) for it in parts[2]])
        return self.operation(parts[0], *[self.value(it, fields, params, line) for it in parts[1:]], line)

    def place(self, items, index, fields, params, line):
        """The place of an item."""
        return self.within(self.value(index, fields, params, line), (0, len(items) - 1), line, "Index")

    def pure(self, pure, numbers):
        """What a pure function returns for these numbers."""
        self.steps += 1
        return self.value(pure.value, None, dict(zip([it.name for it in pure.params], numbers)), pure.line)

    def operation(self, operator, left, right, line):
        """What one of `+ - * / %` gives for two numbers."""
        if operator in "/%" and right == 0:
            raise Stuck(line, "ZeroDivisor")
        quotient = 0 if right == 0 else abs(left) // abs(right) * (1 if (left < 0) == (right < 0) else -1)
        if operator == "%":
            self.within(quotient, (LEAST, GREATEST), line, "Overflow")
        found = {"+": left + right, "-": left - right, "*": left * right, "/": quotient, "%": left - quotient * right}
        return self.within(found[operator], (LEAST, GREATEST), line, "Overflow")

    def test(self, test, fields, params, line):
        """Whether a condition holds."""
        kind, *parts = test
        if kind == "not":
            return not self.test(parts[0], fields, params, line)
        if kind == "junction":
            left = self.test(parts[1], fields, params, line)
            return left if left == (parts[0] == "||") else self.test(parts[2], fields, params, line)
        left, right = (self.value(it, fields, params, line) for it in parts[1:])
        return COMPARISONS[parts[0]](left, right)

    def fitting(self, value, type, fields, params, line):
        """The number of an expression, which must be in a type of C, given by its name."""
        return self.within(self.value(value, fields, params, line), TYPES[type], line, "Range")

    def body(self, body, fields, params):
        """Runs statements: they change the fields in place."""
        for it in body:
            self.steps += 1
            if isinstance(it, Store):
                target, place = fields, it.field
                if it.index is not None:
                    target = fields[it.field]
                    place = self.place(target, it.index, fields, params, it.line)
                target[place] = self.fitting(it.value, it.type, fields, params, it.line)
            elif isinstance(it, If):
                self.body(it.then if self.test(it.test, fields, params, it.line) else it.other, fields, params)
            else:
                numbers = [self.fitting(value, type, fields, params, it.line) for type, value in zip(it.types, it.values)]
                self.call(it.name, fields if it.field is None else fields[it.field], numbers)

    def call(self, name, fields, numbers):
        """Runs the procedure of this name on the fields of a struct."""
        proc = self.functions[name]
        self.calls += bool(re.search(r"(_update|_out[0-9]+)\Z", name))
        self.body(proc.body, fields, dict(zip([it.name for it in proc.params], numbers)))


class Program:
    """A checked program, and its runs over traces."""

    def __init__(self, rules):
        self.rules = rules
        self.inputs = [it.type for it in rules.functions["root_step"].params]
        self.outputs = outputs_of(rules.structs["root"].values())

    def run(self, trace):
        """The status and the text over the rows of a trace."""
        lines, ticks, steps, calls = [], 0, 0, 0
        try:
            machine = Machine(self.rules)
            machine.call("root_start", machine.root, [])
            for numbers in trace:
                machine.steps = machine.calls = 0
                machine.call("root_step", machine.root, numbers)
                lines.append(" ".join(str(machine.root[it]) for it in self.outputs))
                ticks, steps, calls = ticks + 1, steps + machine.steps, calls + machine.calls
        except Stuck as stuck:
            return 9, "\n".join([*lines, "stuck line {} {}\n".format(*stuck.args)])
        return 0, "\n".join([*lines, f"ticks {ticks} steps {steps} calls {calls}\n"])


@lru_cache(1)
def rules_of(data):
    """What the rules say of a text that keeps the grammar."""
    return Rules(Reader(tokens_of(data)).file())


def read(data):
    """The program of a text, or the line and the kind of its first fault."""
    first, end, _ = data.partition(b"\n")
    if (first[:-1] if end and first.endswith(b"\r") else first) != FIRST_LINE:
        return 1, "Syntax"
    tokens = tokens_of(data)
    stray = first_stray(tokens)

    def line_of(at):
        """The line of the token at a place, or the last one."""
        return tokens[at][1] if at < len(tokens) else last_line(data)

    if stray is not None:
        return line_of(stray), "Syntax"
    rules = rules_of(data)
    if rules.faults:
        at, (_, kind) = min(rules.faults)
        return line_of(at), kind
    return Program(rules) if rules.is_whole() else (last_line(data), "Name")
