"""What rows have of the rows on their inputs: types, sample times, needs and loops."""

from functools import reduce
from math import gcd

from model_rows import TRUTHS, WITHOUT_VALUE, controls_of
from model_values import BACK, BOOLEAN, CONSTANT, INHERITED, nearest, number, quantize, type_of


def progression(times):
    """The period and the offset of the smallest progression that has all ticks of these."""
    times = sorted(times)
    if not times:
        return 1, 0
    period = reduce(gcd, [number for period, offset in times for number in (period, offset - times[0][1])])
    return period, times[0][1] % period


def settled_time(row):
    """The period and the offset at which a row runs, in base ticks; of a RateTransition those of its output."""
    if row.ticks:
        return row.ticks
    return (1, 0) if outmost_trigger(row) or row.time_text() == CONSTANT else progression(times_before(row))


def times_before(row):
    """The times that are found backward from a row's inputs, through rows that inherit."""
    found, seen, todo = set(), set(), searched(row)
    while todo:
        at = todo.pop()
        if at in seen:
            continue
        seen.add(at)
        if at.ticks:
            found.add(at.ticks)
        elif at.time_text() == INHERITED:
            todo += searched(at)
    return found


def searched(row):
    """The rows at which the search for times goes on from a row."""
    outmost = outmost_trigger(row)
    return [outmost.sources["trigger"]] if outmost else list(row.sources.values())


def outmost_trigger(row):
    """The outermost subsystem with a trigger around a row, or None."""
    return next((it for it in reversed(row.around()) if "trigger" in it.system.controls()), None)


def needs_of(row):
    """The rows whose value at a tick a row's value needs."""
    return ([] if row.delays else list(row.sources.values())) + [it for around in row.around() for it in controls_of(around)]


def own_type(row):
    """The type that a row has by itself, or None."""
    written = type_of(row.text("OutDataTypeStr")) if row.has("OutDataTypeStr") else INHERITED
    if isinstance(written, tuple):
        return written
    return BOOLEAN if written == INHERITED and row.is_kind(b"Constant", *TRUTHS) else None


def row_of_type(row):
    """The row whose type a row has: itself where nothing is inherited from an input."""
    is_back = row.has("OutDataTypeStr") and type_of(row.text("OutDataTypeStr")) == BACK
    stops = is_back or own_type(row) is not None or row.is_kind(*WITHOUT_VALUE) or row.is_kind(b"Inport") and not row.owner
    return row if stops else row.sources[1]


def is_unlike(row):
    """Whether an Inport or Outport says another type than its source has."""
    source = row.sources[1]
    is_written = isinstance(type_of(row.text("OutDataTypeStr")), tuple)
    return is_written and not source.is_kind(b"Ground") and source.type not in (None, row.type)


def gain_constant(row):
    """The whole number of a Gain, and how many bits of it stand after the point."""
    gain, written = number(row.text("Gain")), type_of(row.text("ParamDataTypeStr"))
    if isinstance(written, tuple):
        return quantize(gain, written), written[2]
    point = max(it for it in range(32) if -(2**31) <= nearest(gain * 2**it) < 2**31)
    constant = nearest(gain * 2**point)
    while point and constant % 2 == 0:
        constant, point = constant // 2, point - 1
    return constant, point


def bits_for(count):
    """The least b with count at most 2 to the b."""
    return (count - 1).bit_length() if count else 0


def magnitude(type):
    """The bits of a type without its sign."""
    return type[1] - type[0]


def wide_bits(row):
    """The bits that the numbers of a row need on the way to its value."""
    if row.system:
        return 0
    sources = [row.sources[it] for it in range(1, row.inputs() + 1)]
    inputs = [BOOLEAN if it.is_kind(b"Ground") else it.type for it in sources]

    def fitted(bits, point):
        """The bits of a number of `bits` bits, `point` of them after the point, at the row's type."""
        return max(bits + max(0, row.type[2] - point), point - row.type[2], 0)

    if row.is_kind(b"Gain"):
        constant, point = gain_constant(row)
        return fitted(magnitude(inputs[0]) + bits_for(abs(constant)), inputs[0][2] + point)
    if row.is_kind(b"Product"):
        return fitted(sum(map(magnitude, inputs)), sum(it[2] for it in inputs))
    if row.is_kind(b"Switch", b"DataTypeConversion"):
        return max(fitted(magnitude(it), it[2]) for it in inputs[::2])
    if row.is_kind(b"Sum", b"RelationalOperator"):
        point = max(it[2] for it in inputs)
        greatest = max(magnitude(it) + point - it[2] for it in inputs)
        return fitted(greatest + bits_for(len(inputs)), point) if row.is_kind(b"Sum") else greatest
    return 0


def first_loop(rows):
    """The first in order of the shortest loops through the least row on a loop, or None."""
    needs = {row: needs_of(row) for row in rows}
    order = {row: at for at, row in enumerate(rows)}
    for row in rows:
        far = distances(needs, row)
        ahead = [it for it in needs[row] if it in far]
        if ahead:
            path = [row, *way(needs, far, order, min(ahead, key=lambda it: (far[it], order[it])))]
            return path[:-1]
    return None


def distances(needs, goal):
    """How many steps along needs lead to the goal, for each row from which some do."""
    back = {row: [] for row in needs}
    for row, needed in needs.items():
        for it in needed:
            back[it].append(row)
    far, todo = {goal: 0}, [goal]
    for row in todo:
        new = [it for it in back[row] if it not in far]
        far |= {it: far[row] + 1 for it in new}
        todo += dict.fromkeys(new)
    return far


def way(needs, far, order, row):
    """The rows from this one to the goal, the first in order of the shortest ways."""
    yield row
    while far[row]:
        row = min((it for it in needs[row] if far.get(it) == far[row] - 1), key=order.get)
        yield row
