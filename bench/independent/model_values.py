"""Forms of parameters, and the numbers and types that they mean. Values are bytes; None means that a text isn't of its form."""

import re
from fractions import Fraction
from math import ceil, floor, trunc

BLANKS = b" \t"
DECIMAL = re.compile(r"([+-]?)(\d+\.?\d*|\.\d+)(?:[eE]([+-]?)(\d+))?", re.A)
QUOTIENT = re.compile(r"([+-]?)(\d+)/(\d+)", re.A)
FIXED = re.compile(r"fixdt\([ \t]*(0|1|true|false)[ \t]*,[ \t]*(\d+)[ \t]*,[ \t]*(\d+)[ \t]*\)", re.A)
PAIR = re.compile(r"\[([^ ,\[\]]+)(?: |, |,)([^ ,\[\]]+)\]")
MOST_DIGITS, MOST_EXPONENT, MOST_PART = 18, 18, 10**9

# A type is its sign, its bits and how many of them stand after the point.
BOOLEAN = (0, 1, 0)
TYPES = {f"{'u' * (1 - sign)}int{bits}": (sign, bits, 0) for sign in (0, 1) for bits in (8, 16, 32)} | {"boolean": BOOLEAN}
FLOAT, INHERITED, BACK, CONSTANT = "float", "inherited", "back", "constant"


def text_of(value):
    """The characters of a value, without blanks around them."""
    return value.strip(BLANKS).decode("latin1")


def is_long(digits):
    """Whether digits are more than a number may have, zeros before them apart."""
    return len(digits.lstrip("0")) > MOST_DIGITS


def quotient(sign, above, below):
    """The fraction of two texts of digits, negative with a sign."""
    if int(below) == 0 or is_long(above) or is_long(below):
        return None
    return Fraction(int(above), int(below)) * (-1 if sign else 1)


def decimal(sign, written, is_small, power):
    """The fraction of digits with a point and a power of ten, which is negative if it is small; the first is negative with a sign."""
    digits, behind = written.replace(".", ""), len(written.partition(".")[2])
    if is_long(digits) or is_long(power):
        return None
    exponent = int(power) * (-1 if is_small else 1) - behind
    if int(digits) and abs(exponent) > MOST_EXPONENT:
        return None
    return int(digits) * Fraction(10) ** (exponent if int(digits) else 0) * (-1 if sign else 1)


def bare_number(text):
    """The fraction that a text without brackets means."""
    if text in ("true", "false"):
        return Fraction(text == "true")
    if found := QUOTIENT.fullmatch(text):
        return quotient(found[1] == "-", found[2], found[3])
    if found := DECIMAL.fullmatch(text):
        return decimal(found[1] == "-", found[2], found[3] == "-", found[4] or "0")
    return None


def number(value):
    """The fraction that a value means."""
    text = text_of(value)
    return bare_number(text[1:-1] if text[:1] == "[" and text[-1:] == "]" else text)


def whole(value):
    """The whole number that a value means."""
    found = None if value is None else number(value)
    return int(found) if found is not None and found.denominator == 1 else None


def type_of(value):
    """The type that a value means: a triple, or one of the words for types that are found elsewhere."""
    text = text_of(value)
    if text in TYPES:
        return TYPES[text]
    if text in ("double", "single", "half"):
        return FLOAT
    if text.startswith("Inherit: Logical"):
        return BOOLEAN
    if text.startswith("Inherit:"):
        return BACK if "back propagation" in text else INHERITED
    if found := FIXED.fullmatch(text):
        sign, bits, point = int(found[1] in ("1", "true")), int(found[2]), int(found[3])
        if 1 + sign <= bits <= 32 and point <= 31:
            return sign, bits, point
    return None


def time_of(value):
    """'inherited', 'constant', 'zero', or a period and an offset."""
    text = text_of(value)
    if text in ("-1", "[-1 0]", "[-1, 0]"):
        return INHERITED
    if text in ("inf", "Inf", "[inf 0]"):
        return CONSTANT
    pair = PAIR.fullmatch(text)
    period, offset = map(bare_number, pair.groups()) if pair else (number(value), Fraction(0))
    if period is None or offset is None:
        return None
    if period == 0:
        return "zero"
    return (period, offset) if is_small(period) and is_small(offset) and 0 <= offset < period else None


def is_small(fraction):
    """Whether both parts of a fraction are as small as a time may have them."""
    return max(fraction.numerator, fraction.denominator) <= MOST_PART


def step_of(value):
    """The positive fraction that a FixedStep is, or None."""
    step = None if value is None else number(value)
    return step if step is not None and step > 0 and is_small(step) else None


def nearest(number):
    """The nearest whole number, ties up."""
    return floor(number + Fraction(1, 2))


def bounds(type):
    """The least and the greatest number of a type, as its bits have them."""
    sign, bits, _ = type
    return (-(2 ** (bits - 1)), 2 ** (bits - 1) - 1) if sign else (0, 2**bits - 1)


def away(number):
    """To the nearest whole number, ties away from zero."""
    return nearest(number) if number >= 0 else -nearest(-number)


# The roundings by their words; Python's own goes to the nearest, ties to even.
ROUNDINGS = {b"Floor": floor, b"Ceiling": ceil, b"Zero": trunc, b"Nearest": nearest, b"Round": away, b"Convergent": round}


def converted(value, point, type, rounding, is_clamped):
    """A whole number with so many bits behind its point, brought into a type."""
    least, greatest = bounds(type)
    found = ROUNDINGS[rounding](Fraction(value) * Fraction(2) ** (type[2] - point))
    return min(max(found, least), greatest) if is_clamped else (found - least) % 2 ** type[1] + least


def quantize(number, type):
    """The number of the type that is nearest."""
    least, greatest = bounds(type)
    return min(max(nearest(number * 2 ** type[2]), least), greatest)
