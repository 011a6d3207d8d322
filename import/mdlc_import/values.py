"""Expressions of parameters, computed exactly: numbers, names, `+ - * / ^`, brackets, casts, truths, and types."""

import re
from collections.abc import Callable, Mapping
from dataclasses import dataclass, field
from fractions import Fraction
from math import floor

from .findings import quoted
from .formats import FLOATS, INTEGERS, NAMED, FixType

MOST_LETTERS, MOST_BITS, MOST_POWER, MOST_DEEP = 4096, 4096, 400, 64
TOKEN = re.compile(
    r"[ \t]*(?:(?P<number>(?:\d+\.?\d*|\.\d+)(?:[eEdD][+-]?\d+)?)|(?P<name>[A-Za-z]\w*(?:\.[A-Za-z]\w*)*)"
    r"|(?P<text>'(?:[^']|'')*'|\"[^\"]*\")|(?P<sign>\.[*/^]|[-+*/^(),\[\];]))",
    re.A,
)
OLD_TYPE = re.compile(r"([su])fix(\d{1,3})(?:_(E|En)(\d{1,3}))?")
DOUBLE, SINGLE, TRUTH = "double", "single", "boolean"


class NoValue(Exception):
    """An expression has no value that can be used; the text says why."""


@dataclass(frozen=True)
class Number:
    """An exact number with its class: `double`, `single`, `boolean` or one of the integers."""

    value: Fraction
    kind: str = DOUBLE


@dataclass(frozen=True)
class TypeValue:
    """A fixed-point type, or the word of a floating-point one."""

    type: FixType | str

    def text(self) -> str:
        """The type as a parameter writes it."""
        return self.type if isinstance(self.type, str) else self.type.text()


Value = Number | TypeValue


@dataclass(frozen=True)
class Scope:
    """Names with their values, or with the reason why they have none; names that aren't here are looked up in the scope around."""

    names: Mapping[str, Value | NoValue] = field(default_factory=dict)
    around: "Scope | None" = None
    has_code: bool = False

    def value(self, name: str) -> Value:
        """The value of a name; raises NoValue."""
        found = self.names.get(name)
        if isinstance(found, NoValue):
            raise found
        if found is not None:
            return found
        if self.has_code:
            raise NoValue(f"{quoted(name)} may be set by code of the mask around it, which isn't run")
        if self.around is None:
            raise NoValue(f"{quoted(name)} has no value; give it by --values")
        return self.around.value(name)


def bounded(value: Fraction) -> Fraction:
    """The number, where it isn't too long to go on with."""
    if max(value.numerator.bit_length(), value.denominator.bit_length()) > MOST_BITS:
        raise NoValue("the number on the way is too long")
    return value


def away(value: Fraction) -> int:
    """The nearest whole number, ties away from zero."""
    return floor(value + Fraction(1, 2)) if value >= 0 else -floor(-value + Fraction(1, 2))


def as_kind(value: Fraction, kind: str) -> Number:
    """A number brought into a class: integers round ties away from zero and saturate; a truth is whether it isn't 0."""
    if kind in INTEGERS:
        wanted = INTEGERS[kind]
        return Number(Fraction(min(max(away(value), wanted.least()), wanted.greatest())), kind)
    if kind == TRUTH:
        return Number(Fraction(value != 0), kind)
    return Number(as_single(value) if kind == SINGLE else value, kind)


def as_single(value: Fraction) -> Fraction:
    """The nearest number with 24 bits, ties to even."""
    if value == 0:
        return value
    shift = 24 - (abs(value.numerator).bit_length() - value.denominator.bit_length())
    scaled = round(value * Fraction(2) ** shift)
    if abs(scaled) >= 2**24:
        shift -= 1
        scaled = round(value * Fraction(2) ** shift)
    if not -126 <= 23 - shift <= 127:
        raise NoValue("the number isn't in the range of single")
    return scaled * Fraction(2) ** -shift


def result_kind(one: Number, other: Number) -> str:
    """The class of a sum, product or quotient of two numbers."""
    kinds = {one.kind, other.kind} - {DOUBLE, TRUTH}
    if SINGLE in kinds:
        raise NoValue("arithmetic of `single` isn't exact")
    if len(kinds) > 1:
        raise NoValue(f"{' and '.join(sorted(kinds))} don't mix")
    return kinds.pop() if kinds else DOUBLE


def power(base: Fraction, exponent: Fraction) -> Fraction:
    """A power, where its exponent is a whole number within bounds."""
    if exponent.denominator != 1 or abs(exponent) > MOST_POWER:
        raise NoValue(f"an exponent is a whole number from -{MOST_POWER} to {MOST_POWER}")
    if base == 0 and exponent < 0:
        raise NoValue("a division by 0")
    size = max(base.numerator.bit_length(), base.denominator.bit_length())
    if size * abs(exponent) > 4 * MOST_BITS:
        raise NoValue("the number on the way is too long")
    return Fraction(base ** int(exponent))


def quotient(one: Fraction, other: Fraction) -> Fraction:
    """A quotient."""
    if other == 0:
        raise NoValue("a division by 0")
    return one / other


SIGNS: dict[str, Callable[[Fraction, Fraction], Fraction]] = {
    "+": lambda one, other: one + other,
    "-": lambda one, other: one - other,
    "*": lambda one, other: one * other,
    "/": quotient,
    "^": power,
}


@dataclass(frozen=True)
class Token:
    """A token and its kind: `number`, `name`, `text`, `sign`, or `end`."""

    kind: str
    text: str


def tokens_of(text: str) -> list[Token]:
    """The tokens of an expression, and the end."""
    if len(text) > MOST_LETTERS:
        raise NoValue("the expression is too long")
    found: list[Token] = []
    at, bare = 0, text.rstrip(" \t;\r\n") if text.strip(" \t;") else ""
    while at < len(bare):
        match = TOKEN.match(bare, at)
        if not match or match.lastgroup is None:
            raise NoValue(f"{quoted(bare[at:].strip())} is no part of an expression")
        found.append(Token(match.lastgroup, match[match.lastgroup]))
        at = match.end()
    return [*found, Token("end", "")]


class Parser:
    """Reads an expression and computes it at once. Signs bind as in MATLAB: `^` before a sign in front, and from the left."""

    def __init__(self, text: str, scope: Scope) -> None:
        self.tokens, self.scope = tokens_of(text), scope
        self.at = self.depth = 0

    def now(self) -> Token:
        """The next token."""
        return self.tokens[self.at]

    def takes(self, *signs: str) -> str | None:
        """The sign that is next, where it is one of these; it is taken."""
        token = self.now()
        if token.kind == "sign" and token.text in signs:
            self.at += 1
            return token.text
        return None

    def needs(self, sign: str) -> None:
        """Takes a sign that must be next."""
        if not self.takes(sign):
            raise NoValue(f"{quoted(sign)} is missing" if self.now().kind == "end" else f"{quoted(self.now().text)} is out of place")

    def whole(self) -> Value:
        """The value of the text."""
        if self.now().kind == "end":
            raise NoValue("it is empty")
        value = self.sum()
        if self.now().kind != "end":
            raise NoValue(f"{quoted(self.now().text)} is out of place")
        return value

    def sum(self) -> Value:
        """Terms with `+` and `-`."""
        self.depth += 1
        if self.depth > MOST_DEEP:
            raise NoValue("more brackets in one another than are read")
        value = self.product()
        while sign := self.takes("+", "-"):
            value = combined(sign, value, self.product())
        self.depth -= 1
        return value

    def product(self) -> Value:
        """Factors with `*` and `/`."""
        value = self.signed()
        while sign := self.takes("*", "/", ".*", "./"):
            value = combined(sign[-1], value, self.signed())
        return value

    def signed(self) -> Value:
        """A power with signs in front."""
        is_negative = is_signed = False
        while sign := self.takes("+", "-"):
            is_signed, is_negative = True, is_negative != (sign == "-")
        value = self.powers()
        return negated(value, is_negative) if is_signed else value

    def powers(self) -> Value:
        """An operand with exponents, from the left."""
        value = self.operand()
        while self.takes("^", ".^"):
            is_negative = False
            while sign := self.takes("+", "-"):
                is_negative = is_negative != (sign == "-")
            value = combined("^", value, negated(self.operand(), is_negative))
        return value

    def operand(self) -> Value:
        """A number, a name, a call, or what is in brackets."""
        token = self.now()
        if token.kind == "number":
            self.at += 1
            return Number(literal(token.text))
        if token.kind == "name":
            self.at += 1
            return self.call(token.text) if self.takes("(") else self.named(token.text)
        closing = {"(": ")", "[": "]"}.get(self.takes("(", "[") or "")
        if closing is None:
            raise NoValue("it ends too soon" if token.kind == "end" else f"{quoted(token.text)} is out of place")
        value = self.sum()
        self.needs(closing)
        return value

    def named(self, name: str) -> Value:
        """The value of a name: those that MATLAB has may be given anew."""
        try:
            return self.scope.value(name)
        except NoValue:
            if name in ("true", "false"):
                return Number(Fraction(name == "true"), TRUTH)
            if name == "eps":
                return Number(Fraction(1, 2**52))
            if name == "pi":
                raise NoValue("`pi` has no exact value; write the digits that are meant") from None
            raise

    def call(self, name: str) -> Value:
        """A function with its arguments, behind the bracket."""
        values: list[Value | str] = []
        while not self.takes(")"):
            if values:
                self.needs(",")
            if self.now().kind == "text":
                values.append(self.now().text[1:-1])
                self.at += 1
            else:
                values.append(self.sum())
        return called(name, values)


def literal(text: str) -> Fraction:
    """A number as it is written."""
    digits, _, exponent = text.lower().replace("d", "e").partition("e")
    if len(digits) > MOST_POWER or len(exponent) > 5 or abs(int(exponent or "0")) > MOST_POWER:
        raise NoValue("the number is too long")
    before, _, behind = digits.partition(".")
    return Fraction(int((before + behind) or "0"), 10 ** len(behind)) * Fraction(10) ** int(exponent or "0")


def number_of(value: "Value | str") -> Number:
    """A value that must be a number."""
    if not isinstance(value, Number):
        raise NoValue("a number must stand here")
    return value


def combined(sign: str, one: Value, other: Value) -> Number:
    """Two numbers with a sign between them."""
    left, right = number_of(one), number_of(other)
    kind = result_kind(left, right)
    return as_kind(bounded(SIGNS[sign](left.value, right.value)), kind)


def negated(value: Value, is_negative: bool) -> Number:
    """A number behind signs, which make a number of a truth."""
    found = number_of(value)
    kind = DOUBLE if found.kind == TRUTH else found.kind
    return as_kind(-found.value if is_negative else found.value, kind)


def called(name: str, values: list[Value | str]) -> Value:
    """The value of a function of the few that are known."""
    if name in (*INTEGERS, DOUBLE, SINGLE, TRUTH, "logical") and len(values) == 1:
        return as_kind(number_of(values[0]).value, TRUTH if name == "logical" else name)
    if name in ("fixdt", "numerictype"):
        return TypeValue(fixdt(values))
    if name in ("hex2dec", "bin2dec") and len(values) == 1 and isinstance(values[0], str):
        base = 16 if name == "hex2dec" else 2
        digits = values[0].strip()
        if not re.fullmatch(r"[0-9A-Fa-f]{1,32}" if base == 16 else r"[01]{1,64}", digits):
            raise NoValue(f"{quoted(digits)} are no digits")
        return Number(Fraction(int(digits, base)))
    if name in (*INTEGERS, DOUBLE, SINGLE, TRUTH, "logical", "hex2dec", "bin2dec"):
        raise NoValue(f"{quoted(name)} takes one argument")
    raise NoValue(f"{quoted(name)} is no function that is known here")


def fixdt(values: list[Value | str]) -> FixType | str:
    """The type of `fixdt(..)`."""
    if values[-2:-1] == ["DataTypeOverride"]:
        values = values[:-2]
    if len(values) == 1 and isinstance(values[0], str):
        return named_type(values[0])
    numbers = [number_of(it).value for it in values]
    if len(numbers) == 2:
        raise NoValue("it leaves the scaling open; write how many bits are after the point, as `fixdt(0,16,0)`")
    if len(numbers) == 4:
        numbers[2:] = [Fraction(point_of(numbers[2], numbers[3]))]
    if len(numbers) != 3 or any(it.denominator != 1 for it in numbers) or numbers[0] not in (0, 1):
        raise NoValue("a type is `fixdt(sign,bits,bits after the point)`")
    return lawful(FixType(numbers[0] == 1, int(numbers[1]), int(numbers[2])))


def point_of(slope: Fraction, bias: Fraction) -> int:
    """How many bits are after the point for a slope that is a power of 2, without a bias."""
    if bias != 0:
        raise NoValue("mdlc has no types with a bias")
    if slope <= 0 or slope.numerator & (slope.numerator - 1) or slope.denominator & (slope.denominator - 1):
        raise NoValue("mdlc has no slopes but powers of 2")
    return slope.denominator.bit_length() - slope.numerator.bit_length()


def lawful(wanted: FixType) -> FixType:
    """A type that mdlc has."""
    if not wanted.is_lawful():
        limits = "with 1 to 32 bits, with a sign 2 to 32, and 0 to 31 of them after the point"
        raise NoValue(f"fixdt({int(wanted.signed)},{wanted.bits},{wanted.point}) is no type of mdlc: types are {limits}")
    return wanted


def named_type(name: str) -> FixType | str:
    """The type that a name is: an integer, `boolean`, a floating-point type, or one of old releases as `sfix16_En8`."""
    bare = name.strip()
    if bare in NAMED:
        return NAMED[bare]
    if bare in FLOATS:
        return bare
    found = OLD_TYPE.fullmatch(bare)
    if not found:
        raise NoValue(f"{quoted(bare)} is no type that is known here")
    point = int(found[4] or "0") * (-1 if found[3] == "E" else 1)
    return lawful(FixType(found[1] == "s", int(found[2]), point))


def evaluate(text: str, scope: Scope) -> Value:
    """The value of an expression; raises NoValue."""
    return Parser(text, scope).whole()


def number_value(text: str, scope: Scope) -> Number:
    """The number of an expression; raises NoValue."""
    found = evaluate(text, scope)
    if isinstance(found, TypeValue):
        raise NoValue("it is a type and no number")
    return found


def list_values(text: str, scope: Scope) -> list[Number]:
    """The numbers of an expression, or of several between brackets."""
    bare = text.strip(" \t")
    if bare[:1] != "[" or bare[-1:] != "]":
        return [number_value(text, scope)]
    return [number_value(it, scope) for it in elements(bare[1:-1])]


def elements(text: str) -> list[str]:
    """The texts between commas, semicolons and blanks outside brackets. Behind a blank, `-1` is a text of its own and `- 1` isn't."""
    parts, depth = [""], 0
    for at, letter in enumerate(text):
        depth += {"(": 1, ")": -1, "[": 1, "]": -1}.get(letter, 0)
        is_blank = letter in " \t" and depth == 0 and parts[-1].strip() and divides(parts[-1], text[at + 1:])
        if letter in ",;" and depth == 0 or is_blank:
            parts.append("")
        else:
            parts[-1] += letter
    return [it for it in parts if it.strip()]


def divides(before: str, behind: str) -> bool:
    """Whether a blank between these ends an element."""
    rest = behind.lstrip(" \t")
    if not rest or before.rstrip()[-1] in "+-*/^,;" or rest[0] in "*/^,;)":
        return False
    return rest[0] not in "+-" or rest[1:2] not in ("", " ", "\t")


def type_value(text: str, scope: Scope) -> TypeValue:
    """The type of an expression; raises NoValue."""
    bare = text.strip(" \t")
    try:
        return TypeValue(named_type(bare))
    except NoValue as fault:
        if OLD_TYPE.fullmatch(bare):
            raise
        if not re.match(r"[A-Za-z]\w*", bare, re.A):
            raise fault from None
    found = evaluate(bare, scope)
    if isinstance(found, Number):
        raise NoValue("it is a number and no type")
    return found
