"""Models at the limits of the rules and beyond them, and scripts, each with the last line that the rules give for it. Lines are
counted while a text is made, so that no refusal is taken from the program."""

import os
import sys

sys.path.insert(0, os.path.join(os.path.dirname(os.path.dirname(os.path.abspath(__file__))), ".ci"))
from mdl_writer import Model  # noqa: E402

MIB = 1 << 20


def compiled(rows, systems, functions):
    """The last line of `compile` for a model that is accepted."""
    return f"compiled rows {rows} systems {systems} functions {functions}"


def report_of(last):
    """The last line of `profile` where that of `compile` is this one."""
    return f"systems {last.split()[4]}" if last.startswith("compiled") else last


def nested(levels):
    """Empty subsystems inside each other, and the lines that open them."""
    it = Model()
    opened = [it.open_subsystem("s") for _ in range(levels)]
    for _ in opened:
        it.close_subsystem()
    return it.data(), opened


def wire_through(levels, enabled=False):
    """A wire through subsystems inside each other, which it enables too if that is wanted."""
    it = Model()
    for level in range(levels + 1):
        it.block("Inport", "x", **({} if level else {"OutDataTypeStr": "boolean"}))
        if level and enabled:
            it.block("EnablePort", "e")
        if level < levels:
            it.open_subsystem("s")
    for level in range(levels, -1, -1):
        it.block("Outport", "y")
        if level < levels:
            it.wire("x", "s")
            if enabled:
                it.wire("x", "s", target_port="enable")
        it.wire("s" if level < levels else "x", "y")
        if level:
            it.close_subsystem()
    return it.data()


def depths():
    """32 subsystems inside each other are the most, and 128 sections. Each level opens two sections, and the first two are open before."""
    yield "32 levels", nested(32)[0], compiled(32, 33, 0)
    for levels in (33, 63):
        text, opened = nested(levels)
        yield f"{levels} levels", text, f"refused F5 TooDeep line {opened[32]}"
    text, opened = nested(64)
    yield "64 levels", text, f"refused F2 Syntax line {opened[63]} DeepSections"
    text, opened = nested(20000)
    yield "20,000 levels", text, f"refused F2 Syntax line {opened[63]} DeepSections"
    yield "a wire through 32 levels", wire_through(32), compiled(98, 33, 33)
    yield "a wire that enables 32 levels", wire_through(32, enabled=True), compiled(130, 33, 33)


def many_subsystems(count):
    """The text of so many empty subsystems of the root, and the lines that open them."""
    it = Model()
    opened = []
    for at in range(count):
        opened.append(it.open_subsystem(f"s{at}"))
        it.close_subsystem()
    return it.data(), opened


def wide():
    """A subsystem of 32 Inports, each wired to an Outport, whose inputs are all one number."""
    it = Model()
    it.block("Inport", "i", OutDataTypeStr="int32")
    it.open_subsystem("s")
    for at in range(1, 33):
        it.block("Inport", f"x{at}", Port=at)
        it.block("Outport", f"y{at}", Port=at)
        it.wire(f"x{at}", f"y{at}")
    it.close_subsystem()
    it.block("Outport", "o")
    for at in range(1, 33):
        it.wire("i", "s", target_port=at)
    it.wire("s", "o", source_port=32)
    return it.data()


def counts():
    """20,000 rows are the most, and 32 Inports and 32 Outports of a system."""
    yield "20,000 subsystems", many_subsystems(20000)[0], compiled(20000, 20001, 0)
    for count in (20001, 50000):
        text, opened = many_subsystems(count)
        yield f"{count} subsystems", text, f"refused F6 TooMany line {opened[20000]} Blocks {count}"
    for kind in ("Inport", "Outport"):
        for count in (33, 20000):
            it = Model()
            for at in range(count):
                it.block(kind, f"p{at}", Port=at + 1)
            yield f"{count} {kind}s of the root", it.data(), f"refused F6 TooMany line 2 {kind}s {count}"
        it = Model()
        opened = it.open_subsystem("s")
        for at in range(19999):
            it.block(kind, f"p{at}")
        it.close_subsystem()
        yield f"19,999 {kind}s of a subsystem", it.data(), f"refused F6 TooMany line {opened} {kind}s 19999"
    yield "a subsystem of 32 Inports and 32 Outports", wide(), compiled(67, 2, 33)


def names():
    """Names and values of a mebibyte."""
    long = "x" * (MIB - 1)
    for kind, systems in (("Ground", 1), ("SubSystem", 3)):
        it = Model()
        for name in (long + "a", long + "b"):
            it.add("Block {", f"BlockType {kind}", f'Name "{name}"', *(["System {", "}"] if systems > 1 else []), "}")
        yield f"two names of 1 MiB, {kind}", it.data(), compiled(2, systems, 0)
    it = Model()
    it.block("Ground", long)
    second = it.block("Ground", long)
    yield "one name of 1 MiB twice", it.data(), f"refused F9 DoubleName line {second}"
    it = Model()
    it.block("Ground", long)
    line = it.wire(long + "a", long)
    yield "a wire from an unknown name of 1 MiB", it.data(), f"refused F10 NoBlock line {line}"
    it = Model()
    it.block("Inport", long + "a", OutDataTypeStr="int32")
    it.block("Outport", long + "b")
    it.wire(long + "a", long + "b")
    yield "a wire between names of 1 MiB", it.data(), compiled(2, 1, 1)
    it = Model()
    yield "a BlockType of 1 MiB", (it.block(long, "a"), it.data())[1], "refused F7 Unsupported line 3"
    it = Model()
    it.block("Ground", "a", **{long: "1"})
    it.add(f"{long} {{", "}")
    yield "names of 1 MiB of a parameter and a section", it.data(), compiled(1, 1, 0)
    it = Model()
    it.add("Block {", "BlockType Ground", 'Name ""', *[f'"{"x" * 64}"'] * (MIB // 64), "}")
    yield "a name of 1 MiB in pieces", it.data(), compiled(1, 1, 0)
    for what, parameters, last in (
        ("9", {"SampleTime": "9" * MIB}, "refused F8 Parameter line 3 SampleTime"),
        ("blank", {"SampleTime": " " * MIB + "1" + " " * MIB}, compiled(1, 1, 0)),
        ("0", {"Value": "0" * MIB + "1"}, compiled(1, 1, 0)),
        ("0 behind a point", {"Value": "." + "0" * MIB + "1"}, "refused F8 Parameter line 3 Value"),
        ("0 of an exponent", {"Value": "1e" + "0" * MIB}, compiled(1, 1, 0)),
    ):
        it = Model()
        it.block("Constant", "c", OutDataTypeStr="int8", **parameters)
        yield f"a value with 1 MiB of {what}", it.data(), last


def ports():
    """Ports that a block doesn't have. Those of more than 32 bits come to one that it has, if their higher bits are lost."""
    for port in (0, 2, -1, 1.5, 2**32, 2**32 + 1, 2**64 + 1, 10**18 - 1, "", "one", "1 1"):
        it = Model()
        it.block("Inport", "i", OutDataTypeStr="int32", Port=port)
        it.block("Outport", "o")
        it.wire("i", "o")
        yield f"an Inport's Port {port!r}", it.data(), "refused F8 Parameter line 3 Port"
    for port in (0, 3, 33, -1, 1.5, 2**32 + 1, 2**64 + 1, 10**18 - 1, '""', "enable", "trigger", "Enable"):
        for end in ("source_port", "target_port"):
            it = Model()
            it.block("Inport", "i", OutDataTypeStr="int32")
            it.open_subsystem("s")
            for at in (1, 2):
                it.block("Inport", f"x{at}", Port=at)
                it.block("Outport", f"y{at}", Port=at)
            it.close_subsystem()
            line = it.wire("s", "s", **{end: port})
            yield f"a {end} {port}", it.data(), f"refused F11 NoPort line {line}"


def controls():
    """Control ports by the thousand, in a subsystem whose controls are wired or not, and in the root."""
    ends = {"EnablePort": "enable", "TriggerPort": "trigger"}
    enables, triggers = ["EnablePort"], ["TriggerPort"]
    for kinds in (enables * 1000, triggers * 1000, (enables + triggers) * 1000, triggers + enables * 19000):
        what = f"{len(kinds)} control ports of {' and '.join(sorted(set(kinds)))}"
        first = min(ends[kind] for kind in kinds)
        for wired in (True, False):
            it = Model()
            it.block("Inport", "i", OutDataTypeStr="boolean")
            opened = it.open_subsystem("s")
            lines = [it.block(kind, f"c{number}") for number, kind in enumerate(kinds)]
            it.close_subsystem()
            for kind in sorted(set(kinds)) if wired else ():
                it.wire("i", "s", target_port=ends[kind])
            second = min(line for number, line in enumerate(lines) if kinds[number] in kinds[:number])
            if wired:
                yield what, it.data(), f"refused F14 TwoControls line {second}"
            else:
                yield f"{what} without a line", it.data(), f"refused F13 Unconnected line {opened} port {first}"
        it = Model()
        lines = [it.block(kind, f"c{number}") for number, kind in enumerate(kinds)]
        yield f"{what} in the root", it.data(), f"refused F14 TwoControls line {lines[0]}"
    it = Model()
    it.block("Inport", "i", OutDataTypeStr="boolean")
    it.open_subsystem("s")
    it.block("EnablePort", "e")
    it.close_subsystem()
    wires = [it.wire("i", "s", target_port="enable") for _ in range(1000)]
    yield "1000 wires to one control", it.data(), f"refused F12 TwoSources line {wires[1]}"


def timed(times, *parameters):
    """For each time a delay that has it, between a constant and a terminator; and the lines of the delays."""
    it = Model(*parameters)
    delays = []
    for at, time in enumerate(times):
        it.block("Constant", f"c{at}", OutDataTypeStr="int8")
        delays.append(it.block("UnitDelay", f"d{at}", SampleTime=time))
        it.block("Terminator", f"t{at}")
        it.wire(f"c{at}", f"d{at}")
        it.wire(f"d{at}", f"t{at}")
    return it.data(), delays


def times():
    """Multiples of periods and of denominators that pass 2^30, 10^9 and 2^64."""
    primes = [it for it in range(2, 200) if all(it % by for by in range(2, it))]
    large = [it for it in range(999000, 1000000) if all(it % by for by in range(2, 1000))]
    first = 2 * 3 * 5 * 7 * 11 * 13 * 17 * 19 * 23 * 29
    for what, given, place, told in (
        ("of the primes", primes, 9, f"Hyper {first}"),
        ("of parts of the primes", [f"1/{it}" for it in primes], 9, f"Denominator {first}"),
        ("of primes below a million", large, 1, f"Hyper {large[0] * large[1]}"),
        ("of parts of primes below a million", [f"1/{it}" for it in large], 1, f"Denominator {large[0] * large[1]}"),
        ("just above the most", [524288, 2049], 1, f"Hyper {524288 * 2049}"),
        ("of the longest times and the shortest", [10**9, f"1/{10**9}"], 0, f"Period {10**18}"),
        ("of the shortest times and the longest", [f"1/{10**9}", 10**9], 1, f"Period {10**18}"),
        ("of two primes below a thousand million", [999999937, 999999929], 0, "Period 999999937"),
        ("of a million ticks and one", ["1000001", 1], 0, "Period 1000001"),
        ("of an offset", [f"[1000000 1/{10**9}]"], 0, f"Period {10**15}"),
    ):
        text, delays = timed(given)
        yield f"periods {what}", text, f"refused F21 LongCycle line {delays[place]} {told}"
    text, delays = timed([1], f'FixedStep "1/{10**9}"')
    yield "a period of a thousand million steps", text, f"refused F21 LongCycle line {delays[0]} Period {10**9}"
    text, delays = timed(["1/999979"], 'FixedStep "1/999983"')
    last = f"refused F21 LongCycle line {delays[0]} Denominator {999983 * 999979}"
    yield "a step and a period with denominators that are prime", text, last
    yield "periods just below the most", timed([524288, 2047])[0], compiled(6, 1, 0)
    yield "one long period", timed([10**9])[0], compiled(3, 1, 0)
    text, delays = timed([10**9 + 1])
    yield "a period that is too long", text, f"refused F8 Parameter line {delays[0]} SampleTime"


def chain(lengths):
    """Delays of these lengths between an Inport and an Outport, and the lines of the delays."""
    it = Model()
    it.block("Inport", "d0", OutDataTypeStr="int32")
    delays = [it.block("Delay", f"d{at + 1}", DelayLength=length) for at, length in enumerate(lengths)]
    it.block("Outport", f"d{len(lengths) + 1}")
    for at in range(len(lengths) + 1):
        it.wire(f"d{at}", f"d{at + 1}")
    return it.data(), delays


def delays():
    """65,535 samples are the most of one delay, and 1,000,000 of all."""
    yield "a delay of 65,535 samples", chain([65535])[0], compiled(3, 1, 1)
    for length in (65536, 0, 2**32 + 1, 2**64 + 1, "9" * MIB):
        text, at = chain([length])
        yield f"a delay of {str(length)[:30]} samples", text, f"refused F8 Parameter line {at[0]} DelayLength"
    full = [65535] * 15
    yield "1,000,000 samples", chain(full + [16975])[0], compiled(18, 1, 1)
    text, at = chain(full + [16976])
    yield "1,000,001 samples", text, f"refused F24 LongDelays line {at[-1]} total 1000001"
    text, at = chain(full + [16974, 1, 1, 1])
    yield "1,000,002 samples", text, f"refused F24 LongDelays line {at[-2]} total 1000001"
    text, at = chain([65535] * 19000)
    yield "19,000 delays of 65,535 samples", text, f"refused F24 LongDelays line {at[15]} total {16 * 65535}"


def models():
    """For each model a name, its text, and the last line of `compile`."""
    for part in (depths, counts, names, ports, controls, times, delays):
        yield from part()


def runs():
    """For each model a name, its text, a trace, the outputs, and the calls in the last line."""
    # Each system is called for its output and its update; where a subsystem is off, those inside it aren't called.
    yield "a wire through 32 levels", wire_through(32), "1\n0\n", "1\n0\n", 2 * 66
    yield "a wire that enables 32 levels", wire_through(32, enabled=True), "1\n0\n", "1\n1\n", 66 + 4
    yield "20,000 subsystems", many_subsystems(20000)[0], "\n\n", "\n\n", 2 * 20001
    yield "1,000,000 samples", chain([65535] * 15 + [16975])[0], "1\n2\n", "0\n0\n", 4
    yield "periods just below the most", timed([524288, 2047])[0], "\n", "\n", 1


def drives():
    """For each model a name, its text, a subsystem, a script, what the calls put, and the totals."""
    yield "the last of 32 levels", wire_through(32), "63", "out 1 1\nupdate 1\n", "out 1 1\n", (1, 2)
    yield "the last of 32 levels with enables", wire_through(32, enabled=True), "94", "out 1 1 1\nupdate 1 1\n", "out 1 1\n", (1, 2)
    yield "20,000 subsystems", many_subsystems(20000)[0], "top", "update\nupdate\n", "", (2, 40002)
    yield "the last of 20,000 subsystems", many_subsystems(20000)[0], "19999", "update\nupdate\n", "", (2, 2)
    yield "1,000,000 samples", chain([65535] * 15 + [16975])[0], "top", "out 1\nupdate 7\n", "out 1 0\n", (1, 2)
    calls = "".join(f"out {at} {at}\n" for at in range(32, 0, -1))
    yield "32 functions", wide(), "1", calls + f"update {' '.join(map(str, range(1, 33)))}\n", calls, (1, 33)


def line_of(size):
    """A call of one wire's output function in a line of so many bytes."""
    return b"out 1" + b" " * (size - 6) + b"5"


def scripts():
    """For each script of calls of one wire a name, its bytes, and a pattern of the last line."""
    at_end = r"ticks 1 steps \d+ calls 2"
    yield from (
        ("a line of 4,096 bytes", line_of(4096) + b"\nupdate 5\n", at_end),
        ("a line of 4,096 bytes without its end", line_of(4096), r"ticks 0 steps \d+ calls 1"),
        ("a line of 4,096 bytes and CR", line_of(4096) + b"\r\nupdate 5\r\n", at_end),
        ("a line of 4,097 bytes", line_of(4097) + b"\n", "script line 1 Long"),
        ("a line of 4,097 bytes without its end", line_of(4097), "script line 1 Long"),
        ("a line of 4,096 bytes and CR without its end", line_of(4096) + b"\r", "script line 1 Long"),
        ("a second line of 4,097 bytes", b"out 1 5\n" + line_of(4097) + b"\n", "script line 2 Long"),
        ("18 digits", b"out 1 " + b"9" * 18, "script line 1 Value 1"),
        ("19 digits", b"out 1 " + b"9" * 19, "script line 1 Form"),
        ("19 digits with a sign", b"out 1 -" + b"9" * 19, "script line 1 Form"),
        ("18 digits with a sign", b"update -" + b"9" * 18, "script line 1 Early 1"),
        ("19 digits of an update", b"update " + b"0" * 19, "script line 1 Form"),
        ("a function of 18 digits", b"out " + b"9" * 18 + b" 5", f"script line 1 NoFunction {10**18 - 1}"),
        ("a function of 19 digits", b"out " + b"9" * 19 + b" 5", "script line 1 Form"),
        ("a function below 0", b"out -1 5", "script line 1 NoFunction -1"),
        ("function 0", b"out 0 5", "script line 1 NoFunction 0"),
        ("function 2^32 + 1", b"out %d 5" % (2**32 + 1), f"script line 1 NoFunction {2**32 + 1}"),
        ("a function alone", b"out 1", "script line 1 Count 0"),
        ("out alone", b"out", "script line 1 Form"),
        ("2,000 values", b"update" + b" 5" * 2000, "script line 1 Count 2000"),
        ("a byte order mark", b"\xef\xbb\xbfout 1 5", "script line 1 Form"),
        ("a byte 0", b"out\x001 5", "script line 1 Form"),
        ("tabs, and zeros to 18 digits", b"\tout\t%018d\t%018d\t\nupdate\t5" % (1, 5), at_end),
        ("tabs, and zeros to 19 digits", b"\tout\t%019d\t%018d\t\nupdate\t5" % (1, 5), "script line 1 Form"),
        ("a number below 0 that is 0", b"out 1 -0\nupdate 0\n", at_end),
    )


SUBSYSTEMS = ["0", "2", "3", "01", "1.", "1 ", "TOP", "Top", "top1", str(2**32 + 1), str(2**64 + 1), "1" * 1000, "9" * 100000]
