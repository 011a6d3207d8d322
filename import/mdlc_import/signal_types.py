"""The types of signals, as mdlc infers them: a written type, or that of an input, from block to block."""

from collections.abc import Mapping
from dataclasses import dataclass
from enum import Enum, auto

from .catalogue import KNOWN
from .formats import BOOLEAN, FLOATS, FixType, fixed_type
from .graph import Row, has_parameter, text_of
from .model import Block


class Why(Enum):
    """Why a block has no type."""

    RING = auto()
    GROUND = auto()
    BACK = auto()
    ROOT = auto()
    INTERNAL = auto()
    FLOAT = auto()
    CONSTANT = auto()
    UNKNOWN = auto()  # What is before it isn't taken, or has no line; that is told elsewhere.


@dataclass(frozen=True)
class NoType:
    """No type: why, the block at which that shows, and the blocks of a ring."""

    why: Why
    at: Block
    ring: tuple[Block, ...] = ()


Found = FixType | NoType
TRUTHS = ("RelationalOperator", "Logic", "CompareToConstant", "CompareToZero")


def own_type(row: Row) -> Found | None:
    """The type that a block has by itself, or why it has none; None where it has that of input 1."""
    block = row.block
    if block.kind not in KNOWN or block.kind in ("Terminator", "EnablePort", "TriggerPort", "SubSystem"):
        return NoType(Why.UNKNOWN, block)
    if "OutDataTypeStr" in block.broken:
        return NoType(Why.UNKNOWN, block)
    if block.kind == "Ground":
        return NoType(Why.GROUND, block)
    text = text_of(block, "OutDataTypeStr") if has_parameter(block, "OutDataTypeStr") else "Inherit:"
    if (written := fixed_type(text)) is not None:
        return written
    if text in FLOATS:
        return NoType(Why.FLOAT, block)
    if "back propagation" in text:
        return NoType(Why.BACK, block)
    if not text.startswith("Inherit:"):
        return NoType(Why.UNKNOWN, block)
    return inherited_type(row)


def inherited_type(row: Row) -> Found | None:
    """The same where the type is inherited."""
    block = row.block
    if block.kind in TRUTHS:
        return BOOLEAN
    if block.kind == "Constant":
        return BOOLEAN if text_of(block, "Value") in ("true", "false") else NoType(Why.CONSTANT, block)
    if block.kind == "Inport" and not row.around:
        return NoType(Why.ROOT, block)
    if block.kind == "DiscreteIntegrator" and not text_of(block, "OutDataTypeStr").startswith("Inherit: Same as"):
        return NoType(Why.INTERNAL, block)
    return None if "1" in row.sources else NoType(Why.UNKNOWN, block)


def types_of(rows: Mapping[Block, Row]) -> dict[Block, Found]:
    """The type of each block, or why it has none."""
    settled: dict[Block, Found] = {}
    for first in rows:
        path: list[Block] = []
        places: dict[Block, int] = {}
        at, found = first, settled.get(first)
        while found is None:
            if at in places:
                ring = tuple(path[places[at]:])
                found = NoType(Why.RING, ring[0], ring)
                break
            places[at] = len(path)
            path.append(at)
            found = own_type(rows[at])
            if found is None:
                at = rows[at].sources["1"]
                found = settled.get(at)
        settled.update({it: found for it in path})
    return settled
