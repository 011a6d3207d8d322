"""The sample times of blocks, as mdlc infers them, in seconds or in base ticks."""

from collections.abc import Iterable, Iterator, Mapping
from fractions import Fraction
from functools import reduce
from math import gcd, lcm

from .formats import CONSTANT_TIMES, period_and_offset
from .graph import Row, has_parameter, text_of
from .model import TRIGGER, Block

Time = tuple[Fraction, Fraction]


def time_text(block: Block) -> str:
    """The text of a block's sample time: of a RateTransition that of its output."""
    if block.kind == "RateTransition":
        return text_of(block, "OutPortSampleTime") if text_of(block, "OutPortSampleTimeOpt") == "Specify" else "-1"
    return text_of(block, "SampleTime") if has_parameter(block, "SampleTime") else "-1"


def written_time(block: Block) -> Time | None:
    """The period and the offset that a block writes, in seconds, or None."""
    return period_and_offset(time_text(block))


def is_constant(block: Block) -> bool:
    """Whether a block gives no time to others."""
    return block.kind == "Ground" or time_text(block) in CONSTANT_TIMES


def outmost_trigger(row: Row) -> Block | None:
    """The outermost subsystem with a trigger around a block."""
    return next((it for it in row.around if it.system is not None and it.system.of_kind("TriggerPort")), None)


def searched(row: Row, rows: Mapping[Block, Row]) -> list[Block]:
    """The blocks at which the search for times goes on."""
    outmost = outmost_trigger(row)
    if outmost is None:
        return list(row.sources.values())
    return [rows[outmost].sources[TRIGGER]] if TRIGGER in rows[outmost].sources else []


def times_before(rows: Mapping[Block, Row]) -> dict[Block, Time | None]:
    """For each block the smallest progression of the times found backward from its inputs, through blocks that inherit."""
    further = {block: searched(row, rows) for block, row in rows.items()}
    found: dict[Block, Time | None] = {}
    for group in groups_of({block: [] if gives(block) else needed for block, needed in further.items()}):
        found.update(dict.fromkeys(group, common_time(times_at([it for block in group for it in further[block]], found))))
    for block in [it for it in rows if gives(it)]:
        found[block] = common_time(times_at(further[block], found))
    return found


def times_at(blocks: Iterable[Block], found: Mapping[Block, Time | None]) -> list[Time]:
    """The times of blocks: what they write, or what was found before them."""
    times = [written_time(it) if gives(it) else found.get(it) for it in blocks]
    return [it for it in times if it is not None]


def gives(block: Block) -> bool:
    """Whether the search for times ends at a block: it writes one, or gives none."""
    return written_time(block) is not None or is_constant(block)


def common_time(times: Iterable[Time]) -> Time | None:
    """The smallest progression that has all of these, or None where there are none."""
    ordered = sorted({it for it in times if it[0]})
    if not ordered:
        return None
    common = lcm(*(part.denominator for time in ordered for part in time))
    period, offset = progression((int(it[0] * common), int(it[1] * common)) for it in ordered)
    return Fraction(period, common), Fraction(offset, common)


def groups_of(needs: Mapping[Block, list[Block]]) -> Iterable[list[Block]]:
    """The blocks in groups that reach each other, each group behind those that it reaches."""
    index: dict[Block, int] = {}
    least: dict[Block, int] = {}
    stack: list[Block] = []
    done: set[Block] = set()
    for first in needs:
        todo: list[tuple[Block, Iterator[Block]]] = []
        if first not in index:
            index[first] = least[first] = len(index)
            stack.append(first)
            todo.append((first, iter(needs[first])))
        while todo:
            block, rest = todo[-1]
            further = next(rest, None)
            if further is None:
                todo.pop()
                if todo:
                    least[todo[-1][0]] = min(least[todo[-1][0]], least[block])
                if least[block] == index[block]:
                    group = [stack.pop()]
                    while group[-1] is not block:
                        group.append(stack.pop())
                    done.update(group)
                    yield group
            elif further not in index:
                index[further] = least[further] = len(index)
                stack.append(further)
                todo.append((further, iter(needs[further])))
            elif further not in done:
                least[block] = min(least[block], index[further])


def progression(times: Iterable[tuple[int, int]]) -> tuple[int, int]:
    """The period and the offset of the smallest progression that has all ticks of these."""
    ordered = sorted(times)
    if not ordered:
        return 1, 0
    first = ordered[0][1]
    period = reduce(gcd, [it for period, offset in ordered for it in (period, offset - first)])
    return period, first % period
