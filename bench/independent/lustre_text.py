"""What the rules say of a Lustre text: its tokens, its trees, and its first fault.

Written from the rules of the dialect and not from the compiler, so that the two can be compared.
Plain and slow. Lines are counted from 1. A fault is a pair of its line and its kind, which is one
of `Syntax`, `Deep`, `Name` and `Type`. A token is a pair of its text and its line; a place is the
number of a token, from 0. Types are sets of `int` and `bool`; one that isn't known has both."""

import re
from dataclasses import dataclass, field

from code_text import KEYWORDS, last_line

GREATEST = 2**63 - 1
DEEPEST = 100
OPERATORS = "+ - * div mod = <> < <= > >= and or".split()
WORDS = set(
    "node returns var let tel int bool call true false not if then else pre div mod and or".split()
)
TOKEN = re.compile(rb"[A-Za-z_][A-Za-z0-9_]*|[0-9]+|->|<>|<=|>=|[^ \t\r\n]", re.S)

# Words in lower case are rules, those in upper case kinds of tokens, and all else stands for itself
# after a quote. What two bodies begin with alike stands in one of them alone, so that few can stand
# at a token.
RULES = """
file: node nodes
nodes: | node nodes
node: 'node NAME '( ports ') 'returns '( ports ') '; vars 'let equations 'tel ';
ports: | decl further_ports
further_ports: | '; decl further_ports
decl: NAME ': TYPE
vars: | 'var decl '; further_vars
further_vars: | decl '; further_vars
equations: | equation equations
equation: NAME equal | '= call
equal: '= right | ', NAME further_names '= call
further_names: | ', NAME further_names
right: expr '; | call
call: 'call NAME '( values ') ';
values: | expr further_values
further_values: | ', expr further_values
expr: LITERAL | TRUTH | NAME | '( inner ')
inner: '- expr | 'not expr | expr join | 'if expr 'then expr 'else expr | 'pre NAME
join: OPERATOR expr | '-> expr
"""
BODIES = {}
for row in RULES.strip().splitlines():
    head, _, rest = row.partition(":")
    BODIES[head] = [tuple(body.split()) for body in rest.split("|")]


def is_name(text):
    """Whether a token is a name: one of C, or `s`, that is no word of the dialect."""
    is_lower = re.fullmatch(r"[a-z][A-Za-z0-9_]*", text) and not text.endswith("_t")
    return bool(is_lower) and text not in KEYWORDS and text not in WORDS


def is_literal(text):
    """Whether a token is a number: `0`, or digits without a leading 0, of at most 63 bits."""
    return bool(re.fullmatch(r"0|[1-9][0-9]*", text)) and int(text) <= GREATEST


FITS = {
    "NAME": is_name,
    "LITERAL": is_literal,
    "TYPE": lambda text: text in ("int", "bool"),
    "TRUTH": lambda text: text in ("true", "false"),
    "OPERATOR": OPERATORS.__contains__,
}


def tokens_of(data):
    """The tokens of the bytes of a file, in their order."""
    found, at, line = [], 0, 1
    while at < len(data):
        if data[at : at + 1] in [b" ", b"\t", b"\r", b"\n"]:
            line += data[at : at + 1] == b"\n"
            at += 1
        else:
            text = TOKEN.match(data, at).group()
            found.append((text.decode("latin1"), line))
            at += len(text)
    return found


# ---- Grammar: what may stand is a set of stacks, pairs of a symbol and of the stack under it, of
# which the empty one is None.
def opened(stacks):
    """The stacks that begin with no rule, for those that may."""
    todo, seen, found = list(stacks), set(), []
    for stack in todo:
        if stack is None or stack[0] not in BODIES:
            found.append(stack)
        elif id(stack) not in seen:
            seen.add(id(stack))
            for body in BODIES[stack[0]]:
                new = stack[1]
                for symbol in reversed(body):
                    new = (symbol, new)
                todo.append(new)
    return found


def is_fit(symbol, text):
    """Whether a token is of a kind, or the one that is asked for."""
    return text == symbol[1:] if symbol.startswith("'") else FITS[symbol](text)


def first_stray(tokens):
    """The place of the first token with which no file can go on, that after the last where the text
    ends too soon, or None."""
    stacks = opened([("file", None)])
    for place, (text, _) in enumerate(tokens):
        left = [stack[1] for stack in stacks if stack and is_fit(stack[0], text)]
        if not left:
            return place
        stacks = opened(left)
    return None if None in stacks else len(tokens)


def first_deep(tokens):
    """The place of the first token that opens an expression more than 100 deep, or None. Of tokens
    with which a file can go on, up to the first that is astray."""
    is_right, depth, before = False, 0, ""
    for place, (text, _) in enumerate(tokens):
        if not is_right:
            is_right = text == "="
            depth = 0
        elif text == ";":
            is_right = False
        elif text == "call":
            # Its parenthesis is no expression, and its node's name neither.
            depth = -1
        elif text == "(":
            depth += 1
            if depth > DEEPEST:
                return place
        elif text == ")":
            depth -= 1
        elif is_operand(text) and before not in ("pre", "call") and depth + 1 > DEEPEST:
            return place
        before = text
    return None


def is_operand(text):
    """Whether a token is an expression of its own."""
    return is_name(text) or is_literal(text) or text in ("true", "false")


# ---- Trees
@dataclass
class Value:
    """An expression at a place: its kind, and its parts. Kinds are `number` (an int), `truth` (a
    bool), `name` and `pre` (a text), `neg` and `not` (one value), `if` (three), `->` and the
    operators (two)."""

    place: int
    kind: str
    parts: list


@dataclass
class Set:
    """`name = value;`, by the place and the line of its first token."""

    place: int
    line: int
    name: str
    value: Value

    @property
    def names(self):
        """The names that it gives."""
        return [self.name]

    @property
    def values(self):
        """The expressions that it reads."""
        return [self.value]


@dataclass
class Call:
    """`names = call node(values);`"""

    place: int
    line: int
    names: list
    node: str
    values: list


@dataclass
class Declared:
    """A declared name with its type, `int` or `bool`."""

    place: int
    name: str
    type: str


@dataclass
class Node:
    """A node: declared names in three lists, and equations in their order."""

    place: int
    line: int
    name: str
    inputs: list
    outputs: list
    others: list
    equations: list = field(default_factory=list)

    @property
    def declared(self):
        """All names that it declares."""
        return [*self.inputs, *self.outputs, *self.others]

    @property
    def types(self):
        """The type of each name that it declares."""
        return {it.name: it.type for it in self.declared}


class Reader:
    """Reads the trees of tokens that keep the grammar."""

    def __init__(self, tokens):
        self.tokens, self.at = tokens, 0

    def ahead(self, further=0):
        """The text of a later token, or none at the end."""
        return self.tokens[self.at + further][0] if self.at + further < len(self.tokens) else ""

    def take(self, *texts):
        """The next token's text, after tokens of these texts are passed."""
        for it in texts:
            assert self.ahead() == it, (self.at, it)
            self.at += 1
        self.at += 1
        return self.tokens[self.at - 1][0]

    def passes(self, *texts):
        """Goes on past these texts."""
        self.at += len(texts)

    def nodes(self):
        """All nodes."""
        found = []
        while self.at < len(self.tokens):
            found.append(self.node())
        return found

    def node(self):
        """One node."""
        place, line = self.at, self.tokens[self.at][1]
        name = self.take("node")
        inputs = self.ports()
        self.passes("returns")
        outputs = self.ports()
        self.passes(";")
        others = []
        if self.ahead() == "var":
            self.passes("var")
            while self.ahead() != "let":
                others.append(self.declared())
                self.passes(";")
        node = Node(place, line, name, inputs, outputs, others)
        self.passes("let")
        while self.ahead() != "tel":
            node.equations.append(self.equation())
        self.passes("tel", ";")
        return node

    def ports(self):
        """Inputs or outputs, in parentheses."""
        found = []
        self.passes("(")
        while self.ahead() != ")":
            self.at += self.ahead() == ";"
            found.append(self.declared())
        self.passes(")")
        return found

    def declared(self):
        """A name with its type."""
        place, name = self.at, self.take()
        return Declared(place, name, self.take(":"))

    def equation(self):
        """One equation."""
        place, line, names = self.at, self.tokens[self.at][1], []
        while self.ahead() != "=":
            self.at += self.ahead() == ","
            names.append(self.take())
        self.passes("=")
        if self.ahead() != "call":
            found = Set(place, line, names[0], self.value())
        else:
            node, values = self.take("call"), []
            self.passes("(")
            while self.ahead() != ")":
                self.at += self.ahead() == ","
                values.append(self.value())
            self.passes(")")
            found = Call(place, line, names, node, values)
        self.passes(";")
        return found

    def value(self):
        """One expression."""
        place, text = self.at, self.take()
        if text != "(":
            return leaf(place, text)
        first = self.ahead()
        if first in ("-", "not"):
            self.passes(first)
            found = Value(place, "neg" if first == "-" else "not", [self.value()])
        elif first == "pre":
            found = Value(place, "pre", [self.take("pre")])
        elif first == "if":
            parts = []
            for _ in "if then else".split():
                self.at += 1
                parts.append(self.value())
            found = Value(place, "if", parts)
        else:
            left = self.value()
            found = Value(place, self.take(), [left, self.value()])
        self.passes(")")
        return found


def leaf(place, text):
    """The value of one token."""
    if text in ("true", "false"):
        return Value(place, "truth", [text == "true"])
    return Value(place, *("number", [int(text)]) if text[0].isdigit() else ("name", [text]))


def names_read(value):
    """The places and texts of the names in a value, `pre` included, in their order."""
    if value.kind in ("name", "pre"):
        return [(value.place + (value.kind == "pre") * 2, value.parts[0])]
    parts = [it for it in value.parts if isinstance(it, Value)]
    return [name for it in parts for name in names_read(it)]


# ---- Static rules
ANY = frozenset({"int", "bool"})
INT, BOOL = frozenset({"int"}), frozenset({"bool"})
NUMERIC = ("+", "-", "*", "div", "mod")
ORDERED = ("<", "<=", ">", ">=")


def possible(value, types):
    """The types that a value may have where names have these, an unknown one any. None where types
    disagree inside it."""
    if value.kind in ("number", "truth"):
        return INT if value.kind == "number" else BOOL
    if value.kind in ("name", "pre"):
        return frozenset({types[value.parts[0]]}) if value.parts[0] in types else ANY
    parts = [possible(it, types) for it in value.parts]
    if not all(parts):
        return None
    if value.kind in ("neg", "not"):
        own = INT if value.kind == "neg" else BOOL
        return own if parts[0] & own else None
    if value.kind == "if":
        return parts[1] & parts[2] or None if "bool" in parts[0] else None
    both = parts[0] & parts[1]
    if value.kind == "->":
        return both or None
    wanted = ANY if value.kind in ("=", "<>") else BOOL if value.kind in ("and", "or") else INT
    return (INT if value.kind in NUMERIC else BOOL) if both & wanted else None


def rule_faults(nodes):
    """The faults of a file that keeps the grammar, in no order: of each the place of its construct,
    and its kind, 0 for Name and 1 for Type."""
    found, known = [], {}
    for node in nodes:
        if node.name in known:
            found.append((node.place, 0))
        found += faults_in(node, known)
        known.setdefault(node.name, node)
    ports = [*nodes[-1].inputs, *nodes[-1].outputs]
    return found + [(nodes[-1].place, 1) for it in ports if it.type == "bool"]


def faults_in(node, known):
    """The faults of a node's names and equations. Earlier nodes are known by their names."""
    names = [it.name for it in node.declared]
    found = [(it.place, 0) for at, it in enumerate(node.declared) if it.name in names[:at]]
    given = [name for it in node.equations for name in it.names]
    outputs = [*node.outputs, *node.others]
    found += [(node.place, 0) for it in outputs if it.name not in given]
    wanted, seen = {it.name for it in outputs} - {it.name for it in node.inputs}, set()
    for it in node.equations:
        for name in it.names:
            if name not in wanted or name in seen:
                found.append((it.place, 0))
            seen.add(name)
        found += equation_faults(it, node.types, known)
    return found


def equation_faults(equation, types, known):
    """The faults of an equation beside those of the names that it gives."""
    read = [name for it in equation.values for name in names_read(it)]
    found = [(place, 0) for place, name in read if name not in types]
    if isinstance(equation, Set):
        wanted, results = [types.get(equation.name)], []
    elif equation.node not in known:
        return [*found, (equation.place, 0)]
    else:
        callee = known[equation.node]
        wanted = [it.type for it in callee.inputs]
        results = [it.type for it in callee.outputs]
        given = [types.get(it) for it in equation.names]
        is_alike = len(given) == len(results) and all(
            one in (None, other) for one, other in zip(given, results)
        )
        found += [] if is_alike else [(equation.place, 1)]
    values = [possible(it, types) for it in equation.values]
    is_fit_all = len(values) == len(wanted) and all(
        one and (other is None or other in one) for one, other in zip(values, wanted)
    )
    return found if is_fit_all else [*found, (equation.place, 1)]


def read(data):
    """The nodes of the bytes of a file, or its first fault."""
    tokens = tokens_of(data)
    stray = first_stray(tokens)
    deep = first_deep(tokens[:stray])
    if deep is not None:
        return tokens[deep][1], "Deep"
    if stray is not None:
        return (tokens[stray][1] if stray < len(tokens) else last_line(data)), "Syntax"
    nodes = Reader(tokens).nodes()
    faults = rule_faults(nodes)
    if not faults:
        return nodes
    place, kind = min(faults)
    return tokens[place][1], ("Name", "Type")[kind]
