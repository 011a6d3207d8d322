"""Random C texts, right and wrong, given to the built program and to the rules."""

import code_rules
from code_text import TYPES

NARROW = [it for it in TYPES if it != "int64_t"]
NUMBERS = ["0", "1", "2", "3", "7", "10", "100", "127", "128", "255", "256", "32767", "65535"]
LARGE = ["2147483647", "2147483648", "4294967295", "4611686018427387904", "9223372036854775807"]
NAMES_IN_USE = ["a1", "p1", "f1", "x1", "u1", "root_step", "y1"]
STRAY = """( ) { } [ ] ; , * = ? : && || < == s -> - ! & . 01 9223372036854775808 X int x_t @ static void if else return
struct int64_t int8_t INT64_C _a # " | 1a /* */ //""".split()
GAPS = ["", "", " ", "\n", "\t", " \r\n", "/* c */", "/*\n*/", "\n\n", "/***/", "/* / * */"]


class CodeText:
    """A text being written, as tokens; `wrong` is how often something in it isn't as it should be."""

    def __init__(self, chance):
        self.chance, self.tokens = chance, []
        self.wrong = chance.choice([0, 0, 0, 0.01, 0.05])
        # How many parameters a pure function has, the fields of a struct with their types, and the struct and types of a procedure.
        self.pures, self.structs, self.procs = {}, {}, {}

    def is_lucky(self, often):
        """True with this chance."""
        return self.chance.random() < often

    def is_wrong(self, share=1):
        """True with this share of the chance that something is wrong."""
        return self.is_lucky(self.wrong * share)

    def put(self, *texts):
        """Adds tokens."""
        self.tokens += texts

    def name(self, base):
        """A new name that begins so, rarely one in use."""
        taken = {*self.pures, *self.procs}
        first = self.chance.choice([1, 1, 9, 12])
        new = next(it for it in (f"{base}{number}" for number in range(first, first + 100)) if it not in taken)
        return self.chance.choice(NAMES_IN_USE) if self.is_wrong() else new

    def type(self, type):
        """The name of this type, rarely of another one."""
        return self.chance.choice([*TYPES]) if self.is_wrong() else type

    def joined(self, values, write):
        """Writes each value, with commas between them."""
        for number, it in enumerate(values):
            self.put(*"," * (number > 0))
            write(it)

    def number(self):
        """Adds a literal."""
        self.put("INT64_C", "(", self.chance.choice(LARGE if self.is_lucky(0.1) else NUMBERS), ")")

    def index(self, length, params, fields):
        """Mostly a number of an item."""
        self.put("[")
        if self.is_lucky(0.7):
            self.put("INT64_C", "(", str(self.chance.randrange(max(1, length) + self.is_lucky(0.05))), ")")
        else:
            self.put("(")
            self.expr(1, params, fields)
            self.put("%", "INT64_C", "(", str(length), ")", ")")
        self.put("]")

    def item(self, params, fields):
        """An item of an array, where there is one."""
        arrays = [name for name, type in fields.items() if isinstance(type, tuple)]
        if not arrays:
            return self.number()
        name = self.chance.choice(arrays)
        self.put("(", "int64_t", ")", "s", "->", name)
        self.index(fields[name][1], params, fields)

    def leaf(self, params, fields):
        """Adds a leaf of an expression over parameters, by their names, and fields, by their names and types."""
        if self.is_lucky(0.2):
            return self.item(params, fields)
        numbers = [[it] for it in params] + [["s", "->", name] for name, type in fields.items() if type in TYPES]
        children = [(name, self.structs[type]) for name, type in fields.items() if type in self.structs]
        inside = [(name, inner) for name, child in children for inner, it in child.items() if it in TYPES]
        numbers += [["s", "->", name, ".", inner] for name, inner in inside]
        if self.is_wrong():
            wrong = "zz / s -> zz / s -> x1 . x1 / s -> c1 / a1 / s -> b1 / s -> c1 . b1"
            numbers = [it.split() for it in wrong.split(" / ")]
            numbers += [["s", "->", name, "[", "INT64_C", "(", "0", ")", "]"] for name in ("x1", "c1", "y1", "zz")]
        if not numbers or self.is_lucky(0.2):
            return self.number()
        self.put("(", "int64_t", ")", *self.chance.choice(numbers))

    def expr(self, depth, params, fields):
        """Adds an expression of at most so many levels."""
        kind = self.chance.choice(["leaf", "leaf", "minus", "pair", "pair", "pair", "pair", "conditional", "call"])
        if depth <= 0 or kind == "leaf" or kind == "call" and not self.pures:
            return self.leaf(params, fields)
        if kind == "call":
            return self.pure_call(depth, params, fields)
        self.put("(")
        if kind == "minus":
            self.put("-")
        elif kind == "pair":
            self.expr(depth - 1, params, fields)
            self.put(self.chance.choice("++--*/%"))
        else:
            self.cond(depth - 1, params, fields)
            self.put("?")
            self.expr(depth - 1, params, fields)
            self.put(":")
        self.expr(depth - 1, params, fields)
        self.put(")")

    def pure_call(self, depth, params, fields):
        """Adds a call of a pure function."""
        name = self.chance.choice([*self.pures])
        self.put("nope" if self.is_wrong() else name, "(")
        self.joined(range(self.pures[name] + self.is_wrong()), lambda _: self.expr(depth - 1, params, fields))
        self.put(")")

    def cond(self, depth, params, fields):
        """Adds a condition of at most so many levels."""
        self.put("(")
        if depth > 0 and self.is_lucky(0.15):
            self.put("!")
            self.cond(depth - 1, params, fields)
        elif depth > 0 and self.is_lucky(0.4):
            self.cond(depth - 1, params, fields)
            self.put(self.chance.choice(["&&", "||"]))
            self.cond(depth - 1, params, fields)
        else:
            self.expr(depth - 1, params, fields)
            self.put(self.chance.choice(["==", "!=", "<", "<=", ">", ">="]))
            self.expr(depth - 1, params, fields)
        self.put(")")

    def fitting(self, type, params, fields):
        """An expression that mostly gives a number of the type."""
        least, greatest = TYPES[type]
        if self.is_lucky(0.15):
            self.expr(self.chance.randrange(4), params, fields)
        elif least and self.is_lucky(0.5):
            self.put("(")
            self.expr(2, params, fields)
            self.put("%", "INT64_C", "(", str(greatest), ")", ")")
        else:
            self.put("INT64_C", "(", str(self.chance.randint(0, greatest)), ")")

    def pure(self):
        """Adds a pure function."""
        name, count = self.name(self.chance.choice(["f", "round_f", "x"])), self.chance.randrange(1, 4)
        params = [f"p{1 if self.is_wrong() else number}" for number in range(1, count + 1)]
        self.put("static", "int64_t", name, "(")
        self.joined(params, lambda it: self.put("int64_t", it))
        self.put(")", "{", "return")
        self.expr(self.chance.randrange(1, 4), params, {})
        self.put(";", "}")
        self.pures.setdefault(name, count)

    def struct(self, name, outputs):
        """Adds a struct of this name with so many outputs."""
        fields = [(f"y{number}", self.chance.choice([*TYPES])) for number in range(1, outputs + 1)]
        for number in range(self.chance.randrange(not fields, 4)):
            inner = [*self.structs] if self.is_lucky(0.4) else []
            fields.append((f"c{number}", self.chance.choice(inner)) if inner else (f"x{number}", self.chance.choice([*TYPES])))
        for number in range(self.chance.choice([0, 0, 1, 2])):
            length = self.chance.choice([0, 65_536, 10**18]) if self.is_wrong() else self.chance.choice([1, 2, 3, 5, 65_535])
            fields.append((f"b{number}", (self.chance.choice([*TYPES]), length)))
        if self.is_wrong(3):
            wrong = [fields[0], ("y9", "int8_t"), ("y0", "int8_t"), ("w", "nope"), ("y", "int8_t"), ("y01", "int8_t"), ("y1", "a0")]
            fields.append(self.chance.choice([*wrong, ("y9", ("int8_t", 2)), ("y1", ("int8_t", 2))]))
        self.chance.shuffle(fields)
        self.put("struct", name, "{")
        for field, type in fields:
            if isinstance(type, tuple):
                self.put(type[0], field, "[", str(type[1]), "]", ";")
            else:
                self.put(*["struct"] * (type not in TYPES), type, field, ";")
        self.put("}", ";")
        self.structs.setdefault(name, dict(fields))

    def store_item(self, params, fields):
        """A store in an item of an array."""
        arrays = [it for it, type in fields.items() if isinstance(type, tuple)]
        if arrays:
            name = self.chance.choice(arrays)
            type, length = fields[name]
            self.put("s", "->", "zz" if self.is_wrong() else name)
            if not self.is_wrong():
                self.index(length, params, fields)
            self.put("=", "(", self.type(type), ")")
            self.fitting(type, params, fields)
            self.put(";")

    def store(self, params, fields):
        """A store in a field."""
        numbers = [it for it, type in fields.items() if type in TYPES]
        if numbers:
            name = self.chance.choice(numbers)
            self.put("s", "->", "zz" if self.is_wrong() else name, "=", "(", self.type(fields[name]), ")")
            self.fitting(fields[name], params, fields)
            self.put(";")

    def choice(self, depth, params, fields, struct):
        """An `if`."""
        self.put("if")
        self.cond(2, params, fields)
        for _ in range(self.chance.choice([1, 2])):
            self.put("{")
            self.stmts(depth - 1, self.chance.randrange(3), params, fields, struct)
            self.put("}", "else")
        self.tokens.pop()

    def call(self, params, fields, struct):
        """A call."""
        targets = [(["s"], struct), *((["&", "s", "->", name], type) for name, type in fields.items() if type in self.structs)]
        calls = [(name, target) for name, (owner, _) in self.procs.items() for target, it in targets if it == owner]
        if calls:
            name, target = self.chance.choice(calls)
            self.put("nope" if self.is_wrong() else name, "(", *target)
            for type in self.procs[name][1][self.is_wrong() :]:
                self.put(",", "(", self.type(type), ")")
                self.fitting(type, params, fields)
            self.put(")", ";")

    def stmts(self, depth, count, params, fields, struct):
        """So many statements."""
        for _ in range(count):
            kind = self.chance.random()
            if kind < 0.15:
                self.store_item(params, fields)
            elif kind < 0.5:
                self.store(params, fields)
            elif kind < 0.7 and depth > 0:
                self.choice(depth, params, fields, struct)
            else:
                self.call(params, fields, struct)

    def proc(self, struct, name, types):
        """A procedure of a struct."""
        params = [self.chance.choice(["u1", "f1", name]) if self.is_wrong() else f"u{number}" for number in range(1, len(types) + 1)]
        self.put(*["static"] * self.is_lucky(0.2), "void", name, "(", "struct", "nope" if self.is_wrong() else struct, "*", "s")
        for type, it in zip(types, params):
            self.put(",", type, it)
        self.put(")", "{")
        self.stmts(2, self.chance.randrange(6), params, self.structs[struct], struct)
        self.put("}")
        self.procs.setdefault(name, (struct, types))

    def file(self):
        """A whole text."""
        for _ in range(self.chance.choice([0, 0, 1, 2])):
            self.pure()
        for number in range(self.chance.randrange(3)):
            self.struct(f"a{number}", 0)
        self.struct("root", self.chance.randrange(4))
        for struct in [it for it in self.structs for _ in range(self.chance.randrange(3))]:
            base = self.chance.choice(["g", f"{struct}_out", f"{struct}_update"])
            name = base if base.endswith("update") and base not in self.procs else self.name(base)
            self.proc(struct, name, self.chance.choices([*TYPES], k=self.chance.randrange(4)))
        if not self.is_wrong():
            self.proc("root", "root_start", ["int8_t"] * self.is_wrong())
        if not self.is_wrong():
            self.proc("root", "root_step", ["int64_t"] if self.is_wrong() else self.chance.choices(NARROW, k=self.chance.randrange(4)))
        return self.tokens


def damaged(chance, tokens):
    """The tokens with a few of them changed."""
    for _ in range(chance.choice([1, 1, 1, 2, 3])):
        at, other = chance.randrange(len(tokens)), chance.randrange(len(tokens))
        what = chance.randrange(5)
        if what == 0:
            tokens[at:] = tokens[at + chance.choice([1, 1, 1, len(tokens)]) :]
        elif what == 1:
            tokens.insert(at, tokens[other])
        elif what == 2:
            tokens[at], tokens[other] = tokens[other], tokens[at]
        elif what == 3:
            tokens[at] = tokens[other]
        else:
            tokens[at] = chance.choice(STRAY)
        tokens = tokens or ["}"]
    return tokens


def is_word(text):
    """Whether a token begins as a word does, so that a blank parts it from another one."""
    return text[-1:].isalnum() or text[-1:] == "_"


def spelled(chance, tokens):
    """The bytes of a text of these tokens."""
    is_wild = chance.random() < 0.3
    parts = ["#include <stdint.h>", "\n" if chance.random() < 0.95 else chance.choice(["\r\n", " \n", "", "\n\n", "\r\r\n"])]
    last = ""
    for it in tokens:
        gap = chance.choice(GAPS) if is_wild else "\n" if last in (";", "{", "}") else chance.choice([" ", "", " "])
        parts += [gap or " " * (is_word(last) and is_word(it[:1])), it]
        last = it
    return "".join([*parts, chance.choice(["", "\n", "\n", "\n\n", " "])]).encode("latin1")


def some_row(chance, types):
    """A number of each of these types of C."""

    def number(least, greatest):
        return chance.choice([least, greatest, chance.randint(least, greatest), sorted((least, greatest, chance.randint(-5, 5)))[1]])

    return [number(*TYPES[it]) for it in types]


def compare_one(chance, program):
    """The kind of a random text, and what differs, or None."""
    tokens = CodeText(chance).file()
    data = spelled(chance, damaged(chance, tokens) if chance.random() < 0.3 else tokens)
    program.write("code", data)
    found = code_rules.read(data)
    if isinstance(found, tuple):
        line, kind = found
        return kind, program.differs(["exec", *program.files("")[1:]], 8, f"code refused line {line} {kind}\n")
    trace = [some_row(chance, found.inputs) for _ in range(chance.randrange(5))]
    status, text = found.run(trace)
    words = program.files("".join(" ".join(map(str, it)) + "\n" for it in trace))
    lines = "".join(it + "\n" for it in text.split("\n")[:-2])
    # C99 reads `//` as a comment up to the end of its line, where the subset has a division before a comment.
    by_gcc = None if status or b"//" in data else program.differs_by_gcc(chance, trace, len(found.outputs), lines, warns=False)
    return text.split()[-1] if status else "run", by_gcc or program.differs(["exec", *words[1:]], status, text)
