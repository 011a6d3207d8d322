"""The forms of numbers, types and sample times that mdlc reads, and how exact numbers are written in them."""

import re
from dataclasses import dataclass
from fractions import Fraction
from functools import lru_cache
from math import floor

BLANKS = " \t"
MOST_DIGITS, MOST_EXPONENT, MOST_PART = 18, 18, 10**9
DECIMAL = re.compile(r"([+-]?)(\d+\.?\d*|\.\d+)(?:[eE]([+-]?)(\d+))?", re.A)
QUOTIENT = re.compile(r"([+-]?)(\d+)/(\d+)", re.A)
FIXED = re.compile(r"fixdt\([ \t]*(0|1|true|false)[ \t]*,[ \t]*(\d+)[ \t]*,[ \t]*(\d+)[ \t]*\)", re.A)
PAIR = re.compile(r"\[([^ ,\[\]]+)(?: |, |,)([^ ,\[\]]+)\]")
INHERITED_TIMES = ("-1", "[-1 0]", "[-1, 0]")
CONSTANT_TIMES = ("inf", "Inf", "[inf 0]")
FLOATS = ("double", "single", "half")


@dataclass(frozen=True)
class FixType:
    """A fixed-point type: a sign or none, its bits, and how many of these are behind the point."""

    signed: bool
    bits: int
    point: int

    def least(self) -> int:
        """The least stored number."""
        return -(1 << (self.bits - 1)) if self.signed else 0

    def greatest(self) -> int:
        """The greatest stored number."""
        return (1 << (self.bits - int(self.signed))) - 1

    def lowest(self) -> Fraction:
        """The least value."""
        return Fraction(self.least(), 2**self.point)

    def highest(self) -> Fraction:
        """The greatest value."""
        return Fraction(self.greatest(), 2**self.point)

    def magnitude(self) -> int:
        """The bits of a number without its sign."""
        return self.bits - int(self.signed)

    def holds(self, value: Fraction) -> bool:
        """Whether the value is in range."""
        return self.lowest() <= value <= self.highest()

    def is_lawful(self) -> bool:
        """Whether mdlc has the type."""
        return 1 + int(self.signed) <= self.bits <= 32 and 0 <= self.point <= 31

    def text(self) -> str:
        """The type as a parameter writes it."""
        if self == BOOLEAN:
            return "boolean"
        if self.point == 0 and self.bits in (8, 16, 32):
            return f"{'' if self.signed else 'u'}int{self.bits}"
        return f"fixdt({int(self.signed)},{self.bits},{self.point})"


BOOLEAN = FixType(False, 1, 0)
INTEGERS = {f"{'' if signed else 'u'}int{bits}": FixType(signed, bits, 0) for signed in (True, False) for bits in (8, 16, 32)}
NAMED = INTEGERS | {"boolean": BOOLEAN}


def is_long(digits: str) -> bool:
    """Whether more digits count than a number may have."""
    return len(digits.lstrip("0")) > MOST_DIGITS


def bare_number(text: str) -> Fraction | None:
    """The number that a text without brackets is to mdlc."""
    if text in ("true", "false"):
        return Fraction(text == "true")
    if found := QUOTIENT.fullmatch(text):
        if is_long(found[2]) or is_long(found[3]) or not int(found[3]):
            return None
        return Fraction(int(found[2]), int(found[3])) * (-1 if found[1] == "-" else 1)
    found = DECIMAL.fullmatch(text)
    return decimal(found) if found else None


def decimal(found: re.Match[str]) -> Fraction | None:
    """The number of a sign, digits with a point, and an exponent."""
    digits, behind = found[2].replace(".", ""), len(found[2].partition(".")[2])
    power = found[4] or "0"
    if is_long(digits) or is_long(power):
        return None
    if not int(digits):
        return Fraction(0)
    exponent = int(power) * (-1 if found[3] == "-" else 1) - behind
    if abs(exponent) > MOST_EXPONENT:
        return None
    return int(digits) * Fraction(10) ** exponent * (-1 if found[1] == "-" else 1)


@lru_cache(maxsize=4096)
def number(text: str) -> Fraction | None:
    """The number that a parameter's text is to mdlc, or None."""
    bare = text.strip(BLANKS)
    return bare_number(bare[1:-1] if bare[:1] == "[" and bare[-1:] == "]" else bare)


def whole(text: str) -> int | None:
    """The whole number that a parameter's text is to mdlc, or None."""
    found = number(text)
    return int(found) if found is not None and found.denominator == 1 else None


@lru_cache(maxsize=4096)
def fixed_type(text: str) -> FixType | None:
    """The written type that a text is to mdlc, or None."""
    bare = text.strip(BLANKS)
    if bare in NAMED:
        return NAMED[bare]
    if bare.startswith("Inherit: Logical"):
        return BOOLEAN
    found = FIXED.fullmatch(bare)
    if not found or max(len(found[2]), len(found[3])) > 6:
        return None
    written = FixType(found[1] in ("1", "true"), int(found[2]), int(found[3]))
    return written if written.is_lawful() else None


def is_small(value: Fraction) -> bool:
    """Whether both parts of a period or an offset are within bounds."""
    return max(abs(value.numerator), value.denominator) <= MOST_PART


@lru_cache(maxsize=4096)
def period_and_offset(text: str) -> tuple[Fraction, Fraction] | None:
    """The period and the offset that a sample time writes to mdlc, or None where it is of another form, or inherits."""
    bare = text.strip(BLANKS)
    if bare in INHERITED_TIMES or bare in CONSTANT_TIMES:
        return None
    pair = PAIR.fullmatch(bare)
    period, offset = (bare_number(pair[1]), bare_number(pair[2])) if pair else (number(bare), Fraction(0))
    if period is None or offset is None:
        return None
    fits = period == 0 or is_small(period) and is_small(offset) and 0 <= offset < period
    return (period, offset) if fits else None


def number_text(value: Fraction) -> str | None:
    """The shortest way in which mdlc reads this very number, or None where it has none."""
    places = next((it for it in range(MOST_EXPONENT + 1) if (value * 10**it).denominator == 1), None)
    if places is not None:
        digits = str(abs(int(value * 10**places))) if abs(value * 10**places) < 10**MOST_DIGITS else ""
        if digits:
            padded = digits.rjust(places + 1, "0")
            point = f"{padded[:-places]}.{padded[-places:]}" if places else padded
            return ("-" if value < 0 else "") + point
    if abs(value.numerator) < 10**MOST_DIGITS and value.denominator < 10**MOST_DIGITS:
        return f"{value.numerator}/{value.denominator}"
    return None


def nearest(value: Fraction) -> int:
    """The nearest whole number, ties up."""
    return floor(value + Fraction(1, 2))


def quantized(value: Fraction, wanted: FixType) -> Fraction:
    """The value of a type that is nearest, ties up."""
    stored = min(max(nearest(value * 2**wanted.point), wanted.least()), wanted.greatest())
    return Fraction(stored, 2**wanted.point)
