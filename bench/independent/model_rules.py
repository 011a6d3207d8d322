"""What the rules of docs/FORMATS.md say of a model's file: its refusal, or what it is compiled to.

Written from the rules and not from the compiler, so that the two can be compared. Plain and slow. What a model gives over a trace
stands in `model_runs`."""

from math import gcd, lcm

import model_text
from model_rows import CONTROLS, PARAMETERS, WITHOUT_VALUE, System, is_of_form
from model_values import BLANKS, FLOAT, INHERITED, step_of, type_of, whole
from model_wires import first_loop, is_unlike, outmost_trigger, own_type, progression, row_of_type, settled_time, times_before, wide_bits

MOST_DENOMINATOR, MOST_PERIOD, MOST_CYCLE, MOST_SAMPLES = 10**9, 10**6, 2**30, 10**6


def branches(section):
    """The Branches of a section, at any depth."""
    for it in section.all(b"Branch"):
        yield it
        yield from branches(it)


def with_branches(line):
    """A Line and its Branches."""
    return [line, *branches(line)]


class Model:
    """Each pass yields refusals as a line and the text behind that line's number; the first of the least line counts."""

    def __init__(self, tree):
        models, libraries = tree.all(b"Model"), tree.all(b"Library")
        if not models and not libraries:
            raise model_text.Refused("F3 NoModel line 0")
        if models and not models[0].all(b"System"):
            raise model_text.Refused(f"F3 NoModel line {models[0].line}")
        if libraries:
            raise model_text.Refused(f"F4 TwoModels line {libraries[0].line} Library")
        if len(models) > 1:
            raise model_text.Refused(f"F4 TwoModels line {models[1].line} Second")
        first = models[0].all(b"System")[0]
        self.step = step_of(first_step(models[0], first))
        defaults = {}
        for section in [block for it in models[0].all(b"BlockParameterDefaults")[:1] for block in it.all(b"Block")]:
            defaults.setdefault(section.param(b"BlockType"), section)
        defaults.pop(None, None)
        self.root = System(first, None, defaults)
        self.systems, self.rows = self.root.all_systems(), self.root.all_rows()

    def depths(self):
        """F5: subsystems too deep."""
        for row in self.rows:
            if row.is_kind(b"SubSystem") and len(row.around()) > 31:
                yield row.line, "F5 TooDeep line {}"

    def many_rows(self):
        """F6: too many blocks."""
        for row in self.rows[20000:20001]:
            yield row.line, f"F6 TooMany line {{}} Blocks {len(self.rows)}"

    def crowds(self):
        """F6: too many ports of a system."""
        for system in self.systems:
            for kind in (b"Inport", b"Outport"):
                count = len(system.of_kind(kind))
                if count > 32:
                    yield (system.owner or system.section).line, f"F6 TooMany line {{}} {kind.decode()}s {count}"

    def unsupported(self):
        """F7: blocks and lines that aren't taken."""
        for row in self.rows:
            if row.kind not in PARAMETERS or row.is_kind(b"SubSystem") and not row.system:
                yield row.line, "F7 Unsupported line {}"
        for section in [it for system in self.systems for line in system.lines for it in with_branches(line)]:
            if section.param(b"Src") is not None or section.param(b"Dst") is not None:
                yield section.line, "F7 Unsupported line {}"

    def parameters(self):
        """F8: parameters that aren't there or not of their form."""
        for system in self.systems:
            counts = {kind: len(system.of_kind(kind)) for kind in PARAMETERS}
            for row in system.rows:
                if row.written("Name") is None:
                    yield row.line, "F8 Parameter line {} Name"
                for name, _ in PARAMETERS[row.kind]:
                    if not is_of_form(row, name, counts):
                        yield row.line, f"F8 Parameter line {{}} {name}"

    def double_names(self):
        """F9: names and ports given twice."""
        for system in self.systems:
            known = set()
            for row in system.rows:
                keys = {row.written("Name")} | ({(row.kind, whole(row.text("Port")))} if row.has("Port") else set())
                if keys & known:
                    yield row.line, "F9 DoubleName line {}"
                known |= keys

    def read_lines(self):
        """Takes the line ends as they stand: the section, the source row and its port, and the destination row; or None for each that
        no name finds."""
        self.places, self.ends = [], []
        for system in self.systems:
            names = {row.written("Name"): row for row in reversed(system.rows)}
            for line in [it for it in system.lines if it.param(b"SrcBlock") is not None]:
                source = names.get(line.param(b"SrcBlock"))
                self.places.append((line, source))
                ends = [it for it in with_branches(line) if it.param(b"DstBlock") is not None]
                self.ends += [(it, line, source, names.get(it.param(b"DstBlock"))) for it in ends]

    def missing_blocks(self):
        """F10: lines from or to a block that isn't there."""
        self.read_lines()
        for section, *rows in [*self.places, *self.ends]:
            if rows[-1] is None:
                yield section.line, "F10 NoBlock line {}"

    def missing_ports(self):
        """F11: lines from or to a port that isn't there."""
        for line, row in self.places:
            port = whole(line.param(b"SrcPort"))
            count = len(row.system.of_kind(b"Outport")) if row.system else 0 if row.is_kind(b"Outport", b"Terminator", *CONTROLS) else 1
            if port is None or not 1 <= port <= count:
                yield line.line, "F11 NoPort line {}"
        for section, *_, row in self.ends:
            if port_of(section, row) is None:
                yield section.line, "F11 NoPort line {}"

    def double_sources(self):
        """F12: ports with two lines."""
        for section, line, source, row in sorted(self.ends, key=lambda it: it[0].line):
            port = port_of(section, row)
            if port in row.sources:
                yield section.line, "F12 TwoSources line {}"
            row.sources[port] = source.system.port(b"Outport", whole(line.param(b"SrcPort"))) if source.system else source

    def missing_lines(self):
        """F13: ports without a line."""
        for row in self.rows:
            for port in [*range(1, row.inputs() + 1), *(row.system.controls() if row.system else [])]:
                if port not in row.sources and not (row.owner and row.is_kind(b"Inport")):
                    yield row.line, f"F13 Unconnected line {{}} port {port}"

    def controls(self):
        """F14: two controls of one kind, or one in the root."""
        for system in self.systems:
            for kind in CONTROLS:
                for row in system.of_kind(kind)[1 if system.owner else 0 :]:
                    yield row.line, "F14 TwoControls line {}"

    def settle_wires(self):
        """Gives each Inport in a subsystem the wire that enters its port, and leaves a subsystem its controls alone."""
        for row in self.rows:
            for inport in row.system.of_kind(b"Inport") if row.system else []:
                inport.sources = {1: row.sources[whole(inport.text("Port"))]}
        for row in self.rows:
            if row.system:
                row.sources = {name: row.sources[name] for name in row.system.controls()}

    def continuous(self):
        """F15: continuous sample times."""
        self.settle_wires()
        for row in self.rows:
            if row.time_text() == "zero":
                yield row.line, "F15 Continuous line {}"

    def floats(self):
        """F16: floating point."""
        for row in self.rows:
            types = [type_of(row.text(it)) for it in ("OutDataTypeStr", "ParamDataTypeStr") if row.has(it)]
            is_number = row.is_kind(b"Constant") and row.text("Value").strip(BLANKS) not in (b"true", b"false")
            if FLOAT in types or is_number and types == [INHERITED]:
                yield row.line, "F16 FloatType line {}"

    def types(self):
        """F17: rows without a type, or with one that disagrees."""
        self.settle_types()
        for row in self.rows:
            if row.is_kind(*WITHOUT_VALUE):
                continue
            if row.type is None:
                yield row.line, "F17 NoType line {} Missing"
            elif (row.is_kind(b"Outport") or row.owner and row.is_kind(b"Inport")) and is_unlike(row):
                yield row.line, "F17 NoType line {} Unlike"

    def settle_types(self):
        """Gives each row its type."""
        settled = {}
        for row in self.rows:
            path, at = [], row
            while at not in settled and at not in path:
                path.append(at)
                at = row_of_type(at)
            # A row at which a path ends has its own type, and those on a path that goes round have none.
            ends = own_type(at) if at in path and row_of_type(at) is at else None
            settled |= dict.fromkeys(path, settled.get(at, ends))
        for row in self.rows:
            row.type = settled[row]

    def signed_triggers(self):
        """F18: triggers by a signed type."""
        for row in self.rows:
            wire = row.sources.get("trigger")
            if wire and not wire.is_kind(b"Ground") and wire.type[0]:
                yield row.line, "F18 TriggerSigned line {}"

    def wide_rows(self):
        """F19: rows that need more than 62 bits."""
        for row in self.rows:
            bits = wide_bits(row)
            if bits > 62:
                yield row.line, f"F19 TooWide line {{}} bits {bits}"

    def inner_times(self):
        """F20: sample times in triggered subsystems."""
        for row in self.rows:
            if outmost_trigger(row) and row.has_period():
                yield row.line, "F20 TimeInside line {}"

    def fractions(self):
        """The rows with the periods that they write, and the offsets above 0."""
        return [(row, it) for row in self.rows if row.has_period() for it in row.time_text() if it]

    def long_denominators(self):
        """F21: sample times without a short common denominator."""
        so_far = self.step.denominator if self.step else 1
        for row, fraction in self.fractions():
            so_far = lcm(so_far, fraction.denominator)
            if so_far > MOST_DENOMINATOR:
                yield row.line, f"F21 LongCycle line {{}} Denominator {so_far}"
                return

    def settle_ticks(self):
        """The time that each row writes, in base ticks."""
        fractions = [it for _, it in self.fractions()] + ([self.step] if self.step else [])
        common = lcm(*(it.denominator for it in fractions))
        base = gcd(*(int(it * common) for it in fractions))
        for row in self.rows:
            row.ticks = tuple(int(it * common) // base for it in row.time_text()) if row.has_period() else None

    def long_periods(self):
        """F21: periods of too many ticks."""
        self.settle_ticks()
        for row in self.rows:
            if row.ticks and row.ticks[0] > MOST_PERIOD:
                yield row.line, f"F21 LongCycle line {{}} Period {row.ticks[0]}"

    def long_cycles(self):
        """F21: a cycle of too many ticks."""
        so_far = 1
        for row in self.rows:
            so_far = lcm(so_far, row.ticks[0]) if row.ticks else so_far
            if so_far > MOST_CYCLE:
                yield row.line, f"F21 LongCycle line {{}} Hyper {so_far}"
                return

    def rate_ratios(self):
        """F22: rates that meet without a whole ratio; gives each row its time."""
        for row in self.rows:
            row.time, row.delays = settled_time(row), row.is_kind(b"UnitDelay", b"Delay")
            if row.is_kind(b"RateTransition") and not outmost_trigger(row):
                inside, outside = progression(times_before(row)), row.ticks or progression(times_before(row))
                row.delays = outside[0] < inside[0]
                row.time = inside if row.delays else outside
                periods = sorted((inside[0], outside[0]))
                if inside != outside and (inside[1] or outside[1] or periods[1] % periods[0]):
                    yield row.line, f"F22 RateRatio line {{}} in {inside[0]} out {outside[0]}"

    def loops(self):
        """F23: loops."""
        path = first_loop(self.rows)
        if path:
            yield path[0].line, "F23 Loop " + " ".join(str(it.line) for it in path)

    def long_delays(self):
        """F24: too many samples in delays."""
        so_far = 0
        for row in self.rows:
            so_far += whole(row.text("DelayLength")) if row.is_kind(b"Delay") else 0
            if so_far > MOST_SAMPLES:
                yield row.line, f"F24 LongDelays line {{}} total {so_far}"
                return

    def judge(self):
        """The first refusal of the model, or None."""
        passes = [self.depths, self.many_rows, self.crowds, self.unsupported, self.parameters, self.double_names]
        passes += [self.missing_blocks, self.missing_ports, self.double_sources, self.missing_lines, self.controls]
        passes += [self.continuous, self.floats, self.types, self.signed_triggers, self.wide_rows, self.inner_times]
        passes += [self.long_denominators, self.long_periods, self.long_cycles, self.rate_ratios, self.loops, self.long_delays]
        for refusals in passes:
            found = list(refusals())
            if found:
                line, text = min(found, key=lambda it: it[0])
                raise model_text.Refused(text.format(line))

    def ports(self, kind):
        """The root's Inports or Outports by port."""
        return self.root.ports(kind)

    def functions(self):
        """How many output functions all systems have."""
        return sum(it.functions() for it in self.systems)


def port_of(section, row):
    """The port of a row at which a line ends: a number or the name of a control, or None where the row has no such port."""
    text = section.param(b"DstPort")
    for name in row.system.controls() if row.system else []:
        if text == name.encode():
            return name
    port = whole(text)
    is_port = port is not None and 1 <= port <= row.inputs()
    return port if is_port else None


def first_step(section, passed):
    """The first FixedStep at any depth, but not in the System that is passed over; or None."""
    for item in section.items:
        found = None
        if isinstance(item, tuple):
            found = bytes(item[1]) if item[0] == b"FixedStep" else None
        elif item is not passed:
            found = first_step(item, passed)
        if found is not None:
            return found
    return None


def verdict(data):
    """The text of the file's refusal, or its model."""
    try:
        if len(data) > 16777216:
            raise model_text.Refused("F1 TooLong")
        model = Model(model_text.read(data))
        model.judge()
        return model
    except model_text.Refused as refused:
        return str(refused)
