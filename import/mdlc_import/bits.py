"""How many bits a block computes with, and how many of them are after the point."""

from collections.abc import Sequence
from fractions import Fraction
from functools import lru_cache

from .formats import FixType, fixed_type, nearest, number, quantized
from .graph import text_of
from .model import Block


def exact_point(block: Block, given: Sequence[FixType]) -> int:
    """The bits after the point of the exact value, before it is brought into the block's type."""
    match block.kind:
        case "Gain":
            return given[0].point + gain_constant(block)[1]
        case "Product":
            return sum(it.point for it in given)
        case "Switch":
            return max(it.point for it in given[::2])
    return max(it.point for it in given)


def fitted(bits: int, point: int, wanted: FixType) -> int:
    """The bits of a value that is brought into a type."""
    return max(bits + max(0, wanted.point - point), point - wanted.point, 0)


def bits_for(count: int) -> int:
    """The least b with a count of at most 2 to the b."""
    return (count - 1).bit_length() if count else 0


def gain_constant(block: Block) -> tuple[int, int]:
    """The whole number of a Gain, and how many of its bits are after the point."""
    gain = number(text_of(block, "Gain")) or Fraction(0)
    written = fixed_type(text_of(block, "ParamDataTypeStr"))
    if written is not None:
        return int(quantized(gain, written) * 2**written.point), written.point
    return best_constant(gain)


@lru_cache(maxsize=4096)
def best_constant(gain: Fraction) -> tuple[int, int]:
    """A number with as many bits after the point as leave it in 32 bits with a sign."""
    point = max((it for it in range(32) if -(2**31) <= nearest(gain * 2**it) < 2**31), default=0)
    constant = nearest(gain * 2**point)
    while point and constant % 2 == 0:
        constant, point = constant // 2, point - 1
    return constant, point
