"""What mdlc refuses once every type is known: bits on the way to a value, times, loops and long delays."""

from collections.abc import Mapping
from fractions import Fraction
from math import gcd, lcm

from .bits import bits_for, exact_point, fitted, gain_constant
from .catalogue import NATIVE
from .formats import FixType, number, whole
from .graph import Row, text_of
from .judge import Judge, Rows, Types, controls_around
from .model import TRIGGER, Block, Model
from .sample_times import groups_of, outmost_trigger, times_before, written_time

MOST_BITS, MOST_DENOMINATOR, MOST_PERIOD, MOST_CYCLE, MOST_SAMPLES = 62, 10**9, 10**6, 2**30, 10**6
MOST_DEEP = 32
LOOP_ADVICE = "Put a UnitDelay into the loop, where one tick of delay is meant."


class WideJudge(Judge):
    """The rules that come behind the types."""

    def __init__(self, model: Model, rows: Rows, types: Types) -> None:
        super().__init__(model, rows, types)
        self.times = times_before(rows)

    def judge(self) -> None:
        """All of them."""
        self.counts()
        for row in self.rows.values():
            self.trigger(row)
            if row.block.kind == "SubSystem" and len(row.around) >= MOST_DEEP:
                says = f"it becomes a subsystem inside {MOST_DEEP} others (F5)."
                self.refused(row.block, says, "Draw it in a system that isn't so deep.")
            bits = self.bits(row)
            if bits > MOST_BITS:
                says = f"it needs {bits} bits on the way, and there are {MOST_BITS} (F19)."
                self.refused(row.block, says, "Take narrower types at its inputs; for a Gain write ParamDataTypeStr.")
            if outmost_trigger(row) is not None and written_time(row.block) is not None:
                self.refused(row.block, "it writes a period inside a triggered subsystem (F20).", "Write -1.")
        ticks = self.ticks()
        if ticks is not None:
            self.ratios(*ticks)
        self.delays()
        self.loops()

    def trigger(self, row: Row) -> None:
        """A trigger with a sign."""
        wire = row.sources.get(TRIGGER)
        given = self.types[wire] if wire is not None else None
        if wire is not None and wire.kind != "Ground" and isinstance(given, FixType) and given.signed:
            says = f"its trigger has the type {given.text()}, with a sign (F18)."
            self.refused(row.block, says, "Compare it with 0, and trigger by the result.")

    def bits(self, row: Row) -> int:
        """The bits that a row needs, or 0 where that isn't known."""
        block, given, wanted = row.block, self.given(row), self.types[row.block]
        if block.system is not None or block.kind not in NATIVE or not given or not isinstance(wanted, FixType):
            return 0
        point = max(it.point for it in given)
        most = max(it.magnitude() + point - it.point for it in given)
        match block.kind:
            case "Gain":
                bits = given[0].magnitude() + bits_for(abs(gain_constant(block)[0]))
                return fitted(bits, exact_point(block, given), wanted)
            case "Product":
                return fitted(sum(it.magnitude() for it in given), exact_point(block, given), wanted)
            case "Switch" | "DataTypeConversion":
                return max(fitted(it.magnitude(), it.point, wanted) for it in given[::2])
            case "Sum":
                return fitted(most + bits_for(len(given)), point, wanted)
            case "RelationalOperator":
                return most
        return 0

    def ticks(self) -> tuple[dict[Block, tuple[int, int]], Fraction] | None:
        """The written times in base ticks, and the base tick in seconds, or None where one is out of bounds."""
        written = {block: time for block in self.rows if (time := written_time(block)) is not None and time[0] > 0}
        step = number(self.model.step) if self.model.step is not None else None
        steps = [step] if step else []
        common = lcm(*(it.denominator for it in steps))
        for block, time in written.items():
            common = lcm(common, time[0].denominator, time[1].denominator)
            if common > MOST_DENOMINATOR:
                says = f"with its time the least common denominator is {common}, above {MOST_DENOMINATOR} (F21)."
                self.refused(block, says, "Write the fractions that are meant, as `1/3` and not `0.333333`.")
                return None
        times = [it for time in written.values() for it in time if it] + steps
        base = gcd(*(int(it * common) for it in times)) or 1
        found = {block: (int(time[0] * common) // base, int(time[1] * common) // base) for block, time in written.items()}
        return (found, Fraction(base, common)) if self.is_short(found) else None

    def is_short(self, ticks: Mapping[Block, tuple[int, int]]) -> bool:
        """Whether all periods and their cycle are within bounds."""
        cycle = 1
        for block, (period, _) in ticks.items():
            cycle = lcm(cycle, period)
            if period > MOST_PERIOD or cycle > MOST_CYCLE:
                says = f"its period is {period} base ticks, and the cycle so far {cycle}, above {MOST_PERIOD} or {MOST_CYCLE} (F21)."
                self.refused(block, says, "Take periods that are multiples of one another.")
                return False
        return True

    def ratios(self, ticks: Mapping[Block, tuple[int, int]], base: Fraction) -> None:
        """RateTransitions between periods that don't divide each other; `base` is the base tick in seconds."""
        for row in [it for it in self.rows.values() if it.block.kind == "RateTransition" and outmost_trigger(it) is None]:
            before = self.times.get(row.block)
            inside = (int(before[0] / base), int(before[1] / base)) if before is not None else (1, 0)
            outside = ticks.get(row.block, inside)
            least, most = sorted((inside[0], outside[0]))
            if inside != outside and (inside[1] or outside[1] or most % least):
                says = f"it goes from a period of {inside[0]} base ticks to one of {outside[0]}, or with an offset (F22)."
                self.refused(row.block, says, "Take periods of which one is a multiple of the other.")

    def delays(self) -> None:
        """Delays that remember too much."""
        total = 0
        for block in [it for it in self.rows if it.kind == "Delay"]:
            length = whole(text_of(block, "DelayLength")) or 0
            total += length
            if not 1 <= length <= 65535:
                self.refused(block, f"DelayLength is {length} (F8).", "It may be 1 to 65535.")
            elif total > MOST_SAMPLES:
                self.refused(block, f"the delays up to here remember {total} samples, more than {MOST_SAMPLES} (F24).", "Shorten delays.")
                return

    def loops(self) -> None:
        """Rows that need one another at one tick."""
        needs = {block: self.needs(row) for block, row in self.rows.items()}
        order = {block: at for at, block in enumerate(self.rows)}
        for group in groups_of(needs):
            loop = shortest(needs, group, order) if len(group) > 1 or group[0] in needs[group[0]] else []
            if loop:
                names = ", ".join(f"`{it.name}`" for it in loop[:8]) + (f" and {len(loop) - 8} more" if len(loop) > 8 else "")
                self.refused(loop[0], f"{names} need each other's values at one tick (F23).".replace("\n", " "), LOOP_ADVICE)

    def needs(self, row: Row) -> list[Block]:
        """The rows whose values a row needs at the same tick."""
        sources = [] if self.is_delay(row) else list(row.sources.values())
        return [*sources, *controls_around(row, self.rows)]

    def is_delay(self, row: Row) -> bool:
        """Whether a row gives what it took before. A RateTransition counts where it goes to a faster rate."""
        if row.block.kind != "RateTransition":
            return row.block.kind in ("UnitDelay", "Delay", "DiscreteIntegrator")
        outside, before = written_time(row.block), self.times.get(row.block)
        return outmost_trigger(row) is None and outside is not None and before is not None and outside[0] < before[0]


def shortest(needs: Mapping[Block, list[Block]], group: list[Block], order: Mapping[Block, int]) -> list[Block]:
    """A shortest loop through the first block of a group, in the order of the file."""
    inside = set(group)
    first = min(group, key=order.__getitem__)
    before: dict[Block, Block] = {}
    reach = [first]
    for block in reach:
        for it in needs[block]:
            if it is first:
                loop = [block]
                while loop[-1] is not first:
                    loop.append(before[loop[-1]])
                return loop[::-1]
            if it in inside and it not in before:
                before[it] = block
                reach.append(it)
    return []
