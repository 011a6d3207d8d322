"""Trees of C texts that keep the grammar, read by recursive descent that tries again where a `(` opens something else."""

from dataclasses import dataclass, field

from code_text import is_name


@dataclass
class Pure:
    """A pure function; `at` is the place of its first token, here and below."""

    at: int
    name: str
    params: list
    value: tuple
    line: int


@dataclass
class Struct:
    """A struct with its fields."""

    at: int
    name: str
    fields: list


@dataclass
class Field:
    """A field of a struct: a number, an array of `length` items or a struct."""

    at: int
    name: str
    type: str
    struct: str = None
    length: int = None


@dataclass
class Param:
    """A parameter of a function."""

    at: int
    name: str
    type: str


@dataclass
class Proc:
    """A procedure on an instance of a struct."""

    at: int
    name: str
    struct: str
    params: list
    body: list


@dataclass
class Store:
    """A store in a field, or in an item of one."""

    at: int
    line: int
    field: str
    type: str
    value: tuple
    index: tuple = None


@dataclass
class If:
    """A test with its two blocks."""

    at: int
    line: int
    test: tuple
    then: list
    other: list


@dataclass
class Call:
    """A call of a procedure on the instance or on one of its fields."""

    at: int
    line: int
    name: str
    field: str
    types: list
    values: list


@dataclass
class Text:
    """What a text holds."""

    pures: list = field(default_factory=list)
    structs: list = field(default_factory=list)
    procs: list = field(default_factory=list)


class Elsewhere(Exception):
    """Raised where a `(` opened something else."""


class Reader:
    """Expressions and conditions are tuples: a word for their kind, and what it has."""

    def __init__(self, tokens):
        self.texts, self.lines, self.at = [text for text, _ in tokens], [line for _, line in tokens], 0

    def sees(self, *wanted):
        """Whether one of these texts comes next."""
        return self.at < len(self.texts) and self.texts[self.at] in wanted

    def take(self, *wanted):
        """The next token, which must be one of these, or any where none is named."""
        if wanted and not self.sees(*wanted):
            raise Elsewhere
        self.at += 1
        return self.texts[self.at - 1]

    def takes(self, *wanted):
        """Takes one of these if it comes next, and says whether it did."""
        return self.sees(*wanted) and bool(self.take())

    def file(self):
        """A whole text, after its first line."""
        text = Text()
        while self.texts[self.at : self.at + 2] == ["static", "int64_t"]:
            text.pures.append(self.pure())
        while self.sees("struct"):
            text.structs.append(self.struct())
        while self.at < len(self.texts):
            text.procs.append(self.proc())
        return text

    def pure(self):
        """A pure function."""
        at = self.at
        self.take("static"), self.take("int64_t")
        name, params = self.take(), []
        while self.take("(", ",", ")") != ")":
            params.append(Param(self.at, *reversed((self.take(), self.take()))))
        self.take("{")
        line = self.lines[self.at]
        self.take("return")
        value = self.expr()
        self.take(";"), self.take("}")
        return Pure(at, name, params, value, line)

    def struct(self):
        """A struct."""
        at = self.at
        self.take("struct")
        name, fields = self.take(), []
        self.take("{")
        while not self.takes("}"):
            place, type = self.at, self.take()
            struct = self.take() if type == "struct" else None
            fields.append(Field(place, self.take(), type, struct, self.length()))
            self.take(";")
        self.take(";")
        return Struct(at, name, fields)

    def length(self):
        """The length of an array."""
        if self.takes("["):
            length = int(self.take())
            self.take("]")
            return length

    def proc(self):
        """A procedure."""
        at = self.at
        self.takes("static")
        self.take("void")
        name = self.take()
        self.take("("), self.take("struct")
        struct, params = self.take(), []
        self.take("*"), self.take("s")
        while self.take(",", ")") == ",":
            params.append(Param(self.at, *reversed((self.take(), self.take()))))
        return Proc(at, name, struct, params, self.block())

    def block(self):
        """Statements in braces."""
        body = []
        self.take("{")
        while not self.takes("}"):
            body.append(self.store() if self.sees("s") else self.choice() if self.sees("if") else self.call())
        return body

    def cast(self):
        """The type in parentheses."""
        self.take("(")
        type = self.take()
        self.take(")")
        return type

    def store(self):
        """A store."""
        at, line = self.at, self.lines[self.at]
        self.take("s"), self.take("->")
        name, index = self.take(), self.index()
        self.take("=")
        type, value = self.cast(), self.expr()
        self.take(";")
        return Store(at, line, name, type, value, index)

    def index(self):
        """The index of an item."""
        if self.takes("["):
            index = self.expr()
            self.take("]")
            return index

    def choice(self):
        """An `if`."""
        at, line = self.at, self.lines[self.at]
        self.take("if")
        return If(at, line, self.cond(), self.block(), self.block() if self.takes("else") else [])

    def call(self):
        """A call as a statement."""
        at, line = self.at, self.lines[self.at]
        name, target, types, values = self.take(), None, [], []
        self.take("(")
        if self.takes("&"):
            self.take("s"), self.take("->")
            target = self.take()
        else:
            self.take("s")
        while self.take(",", ")") == ",":
            types.append(self.cast())
            values.append(self.expr())
        self.take(";")
        return Call(at, line, name, target, types, values)

    def expr(self):
        """An expression."""
        at = self.at
        if self.takes("INT64_C"):
            self.take("(")
            number = int(self.take())
            self.take(")")
            return "number", number
        if not self.takes("("):
            return self.pure_call(at)
        if self.takes("-"):
            value = self.expr()
            self.take(")")
            return "minus", value
        if self.takes("int64_t"):
            self.take(")")
            return self.leaf()
        return self.either(self.operation, self.conditional)

    def pure_call(self, at):
        """A call of a pure function."""
        name, values = self.take(), []
        if not is_name(name):
            raise Elsewhere
        while self.take("(", ",", ")") != ")":
            values.append(self.expr())
        return "call", at, name, values

    def either(self, first, second):
        """What the first way reads, or the second where that one fails."""
        at = self.at
        try:
            return first()
        except Elsewhere:
            self.at = at
            return second()

    def pair(self, word, read, *operators):
        """Two operands with one of these operators, up to the parenthesis."""
        left, operator, right = read(), self.take(*operators), read()
        self.take(")")
        return word, operator, left, right

    def operation(self):
        """A sum, difference, product, quotient or remainder."""
        return self.pair("operation", self.expr, "+", "-", "*", "/", "%")

    def conditional(self):
        """A choice by `?`."""
        test = self.cond()
        self.take("?")
        then = self.expr()
        self.take(":")
        other = self.expr()
        self.take(")")
        return "conditional", test, then, other

    def leaf(self):
        """A parameter, a field, a field of a field, or an item."""
        at = self.at
        if not self.takes("s"):
            return "leaf", at, self.take(), None, None, None
        self.take("->")
        name, index = self.take(), self.index()
        return "leaf", at, None, name, self.take() if index is None and self.takes(".") else None, index

    def cond(self):
        """A condition."""
        self.take("(")
        if self.takes("!"):
            test = self.cond()
            self.take(")")
            return "not", test
        return self.either(self.comparison, self.junction)

    def comparison(self):
        """A comparison of two numbers."""
        return self.pair("comparison", self.expr, "==", "!=", "<", "<=", ">", ">=")

    def junction(self):
        """Two conditions joined."""
        return self.pair("junction", self.cond, "&&", "||")


def uses(value):
    """The leaves and the calls in an expression or a condition."""
    if value[0] in ("leaf", "call"):
        yield value
    parts = value[3] if value[0] == "call" else [it for it in value[1:] if isinstance(it, tuple)]
    for it in parts:
        yield from uses(it)
