"""Random Lustre texts, right and wrong, given to the built program and to a second reading of their
rules. A text is written as a list of tokens; a row of a trace is a list of whole numbers, one for
each input of the last node."""

import lustre_flows
import lustre_text
from lustre_text import OPERATORS

NUMBERS = ["0", "1", "2", "3", "7", "10", "100", "2147483648", "4294967295", "9223372036854775807"]
STRAY = (
    "( ) ; , : = -> <> <= >= < > + - * / div mod and or not if then else pre call node returns var "
    "let tel int bool true false u1 y1 x1 s t_t _a X 01 9223372036854775808 1a == != # @ . /* */ --"
).split()
GAPS = ["", "", " ", "\n", "\t", " \r\n", "\n\n", "\r"]
LEAST_INPUT, GREATEST_INPUT = -(2**31), 2**32 - 1
NUMERIC = ["+", "+", "-", "*", "div", "mod"]
COMPARED = ["<", "<=", ">", ">="]


class LustreText:
    """A text being written, as tokens. `wrong` is how often something in it isn't as it should be,
    from 0 to 1. `known` has the types of inputs and of outputs of each node that was written."""

    def __init__(self, chance):
        self.chance, self.tokens, self.known = chance, [], {}
        self.wrong = chance.choice([0, 0, 0, 0.01, 0.05])
        self.deep = chance.random() < 0.05

    def is_lucky(self, often):
        """Whether a chance of this share comes."""
        return self.chance.random() < often

    def is_wrong(self, share=1):
        """Whether something wrong is written here."""
        return self.is_lucky(self.wrong * share)

    def is_deep(self):
        """Whether something is written at the limit on depth."""
        return self.deep and self.is_lucky(0.5)

    def put(self, *texts):
        """Adds tokens."""
        self.tokens += texts

    def file(self):
        """Nodes, the last of which has numbers alone."""
        names = self.chance.sample(["f", "g", "s", "h2", "root", "a_b", "sum"], 4)
        for name in names[: self.chance.randrange(4)]:
            self.node(self.chance.choice(names) if self.is_wrong() else name, [False, True])
        self.node(names[3], [False, True] if self.is_wrong(3) else [False])
        return self.tokens

    def node(self, name, types):
        """A node whose inputs and outputs are of some of these types, where True is `bool`."""
        inputs = self.names("u", types, [0, 1, 1, 2, 3])
        outputs = self.names("y", types, [0, 1, 1, 1, 2])
        others = self.names("x", [False, True], [0, 1, 2, 3, 5])
        if self.is_wrong():
            self.chance.choice([inputs, outputs, others]).append(("x1", False))
        self.put("node", name, "(")
        self.joined(";", inputs, self.declared)
        self.put(")", "returns", "(")
        self.joined(";", outputs, self.declared)
        self.put(")", ";")
        if others:
            self.put("var")
        for it in others:
            self.declared(it)
            self.put(";")
        self.put("let")
        self.equations(inputs, outputs + others)
        self.put("tel", ";")
        self.known.setdefault(name, ([it[1] for it in inputs], [it[1] for it in outputs]))

    def names(self, letter, types, counts):
        """Different names with their types."""
        count = self.chance.choice(counts)
        return [(f"{letter}{at}", self.chance.choice(types)) for at in range(1, count + 1)]

    def joined(self, mark, things, write):
        """Writes things with a mark between each two."""
        for at, it in enumerate(things):
            self.put(*[mark] * (at > 0))
            write(it)

    def declared(self, name):
        """A name with its type."""
        self.put(name[0], ":", "bool" if name[1] else "int")

    def equations(self, inputs, names):
        """One equation for each name but those of calls, in any order. What an equation reads are
        mostly names before it in an order of its own, so that a tick is seldom stuck."""
        left, groups = names[:], []
        self.chance.shuffle(left)
        while left:
            callee = self.callee(left)
            if callee:
                given = [self.first_of(left, it) for it in self.known[callee][1]]
                groups.append((given, callee))
            else:
                groups.append(([left.pop()], None))
        groups += [([], it) for it in self.known if not self.known[it][1] and self.is_lucky(0.5)]
        written, ready = [], inputs[:]
        for given, callee in groups:
            start = len(self.tokens)
            read = ready if self.is_lucky(0.85) else inputs + names
            self.equation(given, callee, read, inputs + names)
            written.append(self.tokens[start:])
            del self.tokens[start:]
            ready += given
        if written and self.is_wrong(2):
            written.append(self.chance.choice(written))
        if written and self.is_wrong(2):
            written.pop(self.chance.randrange(len(written)))
        if self.is_lucky(0.5):
            self.chance.shuffle(written)
        self.put(*(it for equation in written for it in equation))

    def callee(self, left):
        """A node whose outputs these names can be, sometimes."""
        types = [it[1] for it in left]
        fit = [
            name
            for name, (_, outputs) in self.known.items()
            if outputs and all(types.count(it) >= outputs.count(it) for it in outputs)
        ]
        return self.chance.choice(fit) if fit and self.is_lucky(0.5) else None

    def first_of(self, left, type):
        """Takes the first name of a type."""
        found = next(it for it in left if it[1] == type)
        left.remove(found)
        return found

    def equation(self, given, callee, ready, all_names):
        """An equation that gives names, as a call where there is a callee."""
        depths = [97, 98, 99, 100, 105] if self.is_deep() else [0, 1, 2, 3]
        depth = self.chance.choice(depths)
        self.joined(",", given, lambda it: self.put("zz" if self.is_wrong() else it[0]))
        self.put("=")
        if callee is None:
            self.value(given[0][1] ^ self.is_wrong(), depth, ready, all_names)
        else:
            types = self.known[callee][0]
            self.put("call", "zz" if self.is_wrong() else callee, "(")
            types = types[: self.chance.randrange(len(types) + 1)] if self.is_wrong() else types
            self.joined(",", types, lambda it: self.value(it, depth, ready, all_names))
            self.put(")")
        self.put(";")

    def value(self, is_bool, depth, ready, all_names):
        """An expression of a type, with at most so many parentheses around each other."""
        if self.is_wrong(0.3):
            is_bool = not is_bool
        if depth <= 0:
            return self.leaf(is_bool, ready)
        # One part alone may be deep.
        depths = [depth - 1] + [min(depth - 1, 2)] * 2

        def parts(it):
            """Writes an operand of this type (`it`: whether it is a truth value), at the next of the depths."""
            self.value(it, depths.pop(0), ready, all_names)

        # What is at the tick before ends an expression, so a deep one has none of it.
        kind = self.chance.choice([0, 1, 3, 4, 5, 6] + [2] * (depth < 9))
        before = [name for name, type in all_names if type == is_bool]
        self.put("(")
        if kind == 0:
            self.put("not" if is_bool else "-")
            parts(is_bool)
        elif kind == 1:
            self.put("if")
            parts(True)
            self.put("then")
            parts(is_bool)
            self.put("else")
            parts(is_bool)
        elif kind == 2 and before:
            # What was at the tick before is seldom asked for at the first one.
            name = self.chance.choice(before)
            if self.is_lucky(0.2):
                self.put("pre", name)
            else:
                self.leaf(is_bool, ready)
                self.put("->", "(", "pre", name, ")")
        elif kind == 3:
            parts(is_bool)
            self.put("->")
            parts(is_bool)
        else:
            self.pair(is_bool, parts)
        self.put(")")

    def pair(self, is_bool, parts):
        """An operator on two operands."""
        operator = self.chance.choice(NUMERIC)
        types = False
        if is_bool:
            types = self.is_lucky(0.4)
            kinds = ["and", "or"] if types else COMPARED
            operator = self.chance.choice([*kinds, "=", "<>"])
        parts(types)
        self.put(self.chance.choice(OPERATORS) if self.is_wrong() else operator)
        parts(types)

    def leaf(self, is_bool, ready):
        """A name or a constant."""
        names = [name for name, type in ready if type == is_bool]
        if self.is_wrong():
            self.put("zz")
        elif names and self.is_lucky(0.7):
            self.put(self.chance.choice(names))
        else:
            self.put(self.chance.choice(["true", "false"] if is_bool else NUMBERS))


def damaged(chance, tokens):
    """The tokens with a few of them left out, doubled, changed, or given another place."""
    for _ in range(chance.choice([1, 1, 1, 2, 3])):
        at, other = chance.randrange(len(tokens)), chance.randrange(len(tokens))
        what = chance.randrange(5)
        if what == 0:
            tokens[at:] = tokens[at + chance.choice([1, 1, 1, len(tokens)]) :]
        elif what == 1:
            tokens.insert(at, tokens[other])
        elif what == 2:
            tokens[at], tokens[other] = tokens[other], tokens[at]
        elif what == 3:
            tokens[at] = tokens[other]
        else:
            tokens[at] = chance.choice(STRAY)
        tokens = tokens or [";"]
    return tokens


def exchanged(chance, tokens):
    """The tokens with one expression or name in the place of another, each of which is whole."""
    spans, opens = [], []
    for at, it in enumerate(tokens):
        if it == "(":
            opens.append(at)
        elif it == ")" and opens:
            spans.append((opens.pop(), at + 1))
        elif lustre_text.is_operand(it):
            spans.append((at, at + 1))
    if not spans:
        return tokens
    (start, end), (first, last) = chance.choice(spans), chance.choice(spans)
    return [*tokens[:start], *tokens[first:last], *tokens[end:]]


def is_word(text):
    """Whether a token ends as a word does."""
    return text[-1:].isalnum() or text[-1:] == "_"


def spelled(chance, tokens):
    """The bytes of tokens, with blanks of any kind between them or one equation a line."""
    is_wild = chance.random() < 0.3
    parts, last = [], ""
    for it in tokens:
        ends = last in (";", "let", "var")
        gap = chance.choice(GAPS) if is_wild else "\n" if ends else chance.choice([" ", "", " "])
        parts += [gap or " " * (is_word(last) and is_word(it[:1])), it]
        last = it
    return "".join([*parts, chance.choice(["", "\n", "\n", "\n\n", " "])]).encode("latin1")


def spoiled(chance, data):
    """The bytes with one of them changed, left out or doubled."""
    at = chance.randrange(len(data))
    new = [b"", data[at : at + 1] * 2, bytes([chance.randrange(256)])]
    return data[:at] + chance.choice(new) + data[at + 1 :]


def some_text(chance):
    """The bytes of a random text: a lawful one, or one with faults of some kind."""
    tokens = LustreText(chance).file()
    kind = chance.random()
    if kind < 0.2:
        tokens = damaged(chance, tokens)
    elif kind < 0.3:
        tokens = exchanged(chance, tokens)
    data = spelled(chance, tokens)
    return spoiled(chance, data) if 0.3 <= kind < 0.4 else data


def some_number(chance):
    """A number that a trace may hold."""
    near = chance.choice([0, 0, LEAST_INPUT, GREATEST_INPUT]) + chance.randint(-3, 3)
    any_number = chance.choice([near, chance.randint(LEAST_INPUT, GREATEST_INPUT)])
    return min(max(any_number, LEAST_INPUT), GREATEST_INPUT)


def number_of(value):
    """A number, or a truth value as one."""
    return int(value)


def compare_one(chance, program):
    """The kind of a random text, and what differs from the program's `flow`, or None."""
    data = some_text(chance)
    program.write("lustre", data)
    found = lustre_text.read(data)
    width = 0 if isinstance(found, tuple) else len(found[-1].inputs)
    rows = [[some_number(chance) for _ in range(width)] for _ in range(chance.randrange(6))]
    program.write("trace", "".join(" ".join(map(str, it)) + "\n" for it in rows).encode())
    words = ["flow", f"{program.folder}/lustre", f"{program.folder}/trace"]
    if isinstance(found, tuple):
        line, kind = found
        return kind, program.differs(words, 11, f"lustre refused line {line} {kind}\n")
    given, stuck = lustre_flows.run(found, rows)
    lines = "".join(" ".join(map(str, map(number_of, it))) + "\n" for it in given)
    if stuck:
        line, why = stuck
        return why, program.differs(words, 9, f"{lines}stuck line {line} {why}\n")
    return "run", program.differs(words, 0, f"{lines}ticks {len(given)}\n")
