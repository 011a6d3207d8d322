"""What mdlc would refuse of a model with known parameters, by the numbers of docs/REFUSALS.md, all at once."""

from collections.abc import Mapping
from fractions import Fraction

from .bits import exact_point
from .catalogue import AUTO, FIRST, RULE, SAME
from .findings import Word, quoted
from .formats import BOOLEAN, FLOATS, FixType, fixed_type, number, period_and_offset, quantized, whole
from .graph import WITHOUT_VALUE, Row, controls_of, has_parameter, inputs_of, text_of
from .model import Block, Model
from .sample_times import time_text
from .signal_types import Found, NoType, Why

MOST_BLOCKS, MOST_PORTS = 20_000, 32
RING_KINDS = ("Sum", "Switch", "Product", "DataTypeConversion", "MinMax", "Gain", "Saturate", "Abs", "Relay", "DiscreteIntegrator")
Rows = Mapping[Block, Row]
Types = Mapping[Block, Found]


class Judge:
    """Says what is wrong with a model's rows."""

    def __init__(self, model: Model, rows: Rows, types: Types) -> None:
        self.model, self.rows, self.types = model, rows, types

    def refused(self, block: Block, says: str, instead: str = "") -> None:
        """Tells what can't be taken."""
        self.model.says(Word.REFUSED, self.rows[block].path, block, says, instead)

    def ignored(self, block: Block, says: str, instead: str) -> None:
        """Tells what is passed over."""
        self.model.says(Word.IGNORED, self.rows[block].path, block, says, instead)

    def judge(self) -> None:
        """All that shows before any block is drawn anew."""
        self.counts()
        self.systems()
        for block in self.rows:
            if has_parameter(block, "SampleTime") or block.kind == "RateTransition":
                time = period_and_offset(time_text(block))
                if time is not None and time[0] == 0:
                    self.refused(block, "its sample time is 0, and there is no continuous time (F15).", "Write its period, or -1.")
            if block.kind == "SubSystem" and whole(text_of(block, "SystemSampleTime")) != -1:
                says = f"SystemSampleTime is {quoted(text_of(block, 'SystemSampleTime'))} (F8)."
                self.refused(block, says, "Write -1, and the time at the blocks in it.")
        self.floats()
        self.missing_types()
        self.unlike_types()
        self.roundings()
        self.rules()

    def counts(self) -> None:
        """Too many blocks, Inports or Outports."""
        if len(self.rows) > MOST_BLOCKS:
            block = list(self.rows)[MOST_BLOCKS]
            self.refused(block, f"there are {len(self.rows)} blocks, more than {MOST_BLOCKS} (F6).", "Cut the model in two.")
        for system, path, around in self.model.systems():
            owner = around[-1] if around else Block("", self.model.name, "model")
            for kind in ("Inport", "Outport"):
                count = len(system.of_kind(kind))
                if count > MOST_PORTS:
                    says = f"it has {count} {kind}s, more than {MOST_PORTS} (F6)."
                    self.model.says(Word.REFUSED, path, owner, says, "Cut the system in two.")

    def systems(self) -> None:
        """Names, ports and control ports of each system."""
        for system, _, around in self.model.systems():
            names: set[str] = set()
            for block in system.blocks:
                if block.name in names:
                    self.refused(block, "an earlier block of this system has its name (F9).", "Give each a name of its own.")
                names.add(block.name)
            for kind in ("Inport", "Outport"):
                self.ports(system.of_kind(kind))
            for kind in ("EnablePort", "TriggerPort"):
                for block in system.of_kind(kind)[1 if around else 0:]:
                    says = "a second one in this system (F14)." if around else "there is nothing outside the root to control it (F14)."
                    self.refused(block, says, "Join the conditions before the subsystem." if around else "Put the model into a subsystem.")

    def ports(self, blocks: list[Block]) -> None:
        """The numbers of Inports or Outports, and what else they write as whole numbers."""
        known: set[int] = set()
        for block in blocks:
            port = whole(text_of(block, "Port"))
            if port is None or not 1 <= port <= len(blocks):
                self.refused(block, f"Port is {quoted(text_of(block, 'Port'))}, and there are {len(blocks)} (F8).", "Number them from 1.")
            elif port in known:
                self.refused(block, f"an earlier one has Port {port} (F9).", "Number them from 1.")
            else:
                known.add(port)
            if whole(text_of(block, "PortDimensions")) not in (-1, 1):
                self.refused(block, "PortDimensions isn't -1 or 1: there are no vectors (F8).", "Take a port for each signal.")

    def floats(self) -> None:
        """Floating-point types."""
        for block in self.rows:
            for name in ("OutDataTypeStr", "ParamDataTypeStr"):
                if has_parameter(block, name) and text_of(block, name) in FLOATS:
                    says = f"{name} is {quoted(text_of(block, name))}, and there are no floating-point types (F16)."
                    self.refused(block, says, "Write a fixed-point type, as `fixdt(1,16,8)`.")
            found = self.types[block]
            if isinstance(found, NoType) and found.why is Why.CONSTANT and found.at is block:
                value = text_of(block, "Value")
                says = f"its type is that of its value {quoted(value)}, which is `double` (F16)."
                self.refused(block, says, "Write OutDataTypeStr, as `int16` or `fixdt(1,16,8)`.")

    def missing_types(self) -> None:
        """Blocks without a type: of those that inherit from one another each cause is told once."""
        told: set[Block] = set()
        says = {
            Why.ROOT: ("an Inport of the root has nothing to inherit its type from (F17).", "Write OutDataTypeStr."),
            Why.BACK: ("its type would come from the blocks that read it (F17).", "Write OutDataTypeStr."),
            Why.INTERNAL: ("its type is chosen by Simulink's internal rule.", "Write OutDataTypeStr."),
        }
        for block, found in self.types.items():
            if not isinstance(found, NoType) or block.kind in WITHOUT_VALUE:
                continue
            if found.why in says and found.at not in told:
                told.add(found.at)
                self.refused(found.at, *says[found.why])
            elif found.why is Why.RING and found.at not in told:
                told.add(found.at)
                self.ring(found.ring)
            elif found.why is Why.GROUND and self.rows[block].sources.get("1") is found.at:
                says_so = f"it inherits its type from the Ground {quoted(found.at.name)}, which has none (F17)."
                self.refused(block, says_so, "Write OutDataTypeStr, or take a Constant of a written type.")

    def ring(self, ring: tuple[Block, ...]) -> None:
        """Blocks that inherit from one another all round."""
        best = [it for kind in RING_KINDS for it in ring if it.kind == kind]
        names = [quoted(it.name) for it in ring]
        shown = ", ".join(names[:8]) + (f" and {len(names) - 8} more" if len(names) > 8 else "")
        if len(ring) == 1:
            self.refused(ring[0], "it inherits its type from itself (F17).", "Put a DataTypeConversion with a written type before it.")
        elif best:
            says = f"{shown} inherit their type from one another, and none writes it (F17)."
            self.refused(best[0], says, f"Write OutDataTypeStr at {quoted(best[0].name)}.")
        else:
            says = f"{shown} inherit their type from one another (F17)."
            self.refused(ring[0], says, "Put a DataTypeConversion with a written type between them.")

    def unlike_types(self) -> None:
        """Ports that write another type than their input has."""
        for block, row in self.rows.items():
            if block.kind not in ("Inport", "Outport") or "1" not in row.sources:
                continue
            written, source = fixed_type(text_of(block, "OutDataTypeStr")), row.sources["1"]
            given = self.types[source]
            if written is not None and isinstance(given, FixType) and source.kind != "Ground" and given != written:
                says = f"it writes {written.text()}, and its input has {given.text()} (F17)."
                self.refused(block, says, "Put a DataTypeConversion before it, or let it inherit.")

    def given(self, row: Row) -> list[FixType]:
        """The types of all inputs of a block, or none where one isn't known. A Ground counts as boolean."""
        found = [BOOLEAN if it.kind == "Ground" else self.types[it] for it in row.inputs()]
        given = [it for it in found if isinstance(it, FixType)]
        return given if len(given) == len(inputs_of(row.block)) else []

    def roundings(self) -> None:
        """Blocks whose rounding is left to Simulink: where no bit is lost, each is the same."""
        for block in [it for it in self.rows if it.rounds_as_it_likes]:
            given, wanted = self.given(self.rows[block]), self.types[block]
            is_known = bool(given) and isinstance(wanted, FixType) and block.kind != "DiscreteIntegrator"
            if is_known and isinstance(wanted, FixType) and exact_point(block, given) <= wanted.point:
                says = "RndMeth is `Simplest`, which mdlc doesn't read (F8); nothing is rounded here."
                self.model.says(Word.REWRITTEN, self.rows[block].path, block, says, "mdlc-import writes `Floor`.")
            else:
                says = "RndMeth is `Simplest`, so Simulink chooses how it rounds (F8)."
                self.refused(block, says, "Write `Floor`, or how it shall round.")

    def rules(self) -> None:
        """Inherited types that Simulink may choose otherwise."""
        plain = {"Sum": (FIRST,), "Product": (FIRST,), "Switch": (FIRST,), "Gain": (SAME,), "Inport": (AUTO,), "Outport": (AUTO,)}
        for block, row in self.rows.items():
            text = text_of(block, "OutDataTypeStr")
            inherits = block.kind in plain and text.startswith("Inherit:") and not text.startswith("Inherit: Logical")
            if inherits and "back propagation" not in text and text not in (*plain[block.kind], SAME) and not self.is_alike(row, text):
                what = "the type of its input" if block.kind == "Gain" else "the type of input 1"
                self.ignored(block, f"its type is {quoted(text)}: mdlc takes {what}, where Simulink may choose another.", "Write the type.")
            if has_parameter(block, "OutDataTypeStr") and text.startswith("Inherit: Logical") and not self.model.has_booleans:
                says = f"its type is {quoted(text)}, and BooleanDataType of the model is `off`, so Simulink takes `double` (F16)."
                self.refused(block, says, "Write `boolean` as OutDataTypeStr, or switch BooleanDataType on.")
            if block.kind == "Gain":
                self.gain(row)
            if block.kind == "Sum":
                self.accumulator(row)

    def is_alike(self, row: Row, text: str) -> bool:
        """Whether a Switch chooses between inputs of one type, which Simulink's rule keeps; or what is before it isn't known."""
        found = [self.types[it] for it in row.inputs()]
        if any(isinstance(it, NoType) and it.why is Why.UNKNOWN for it in found):
            return True
        return row.block.kind == "Switch" and text == RULE and len(found) == 3 and found[0] == found[2]

    def gain(self, row: Row) -> None:
        """The number of a Gain whose type is inherited, where Simulink would take fewer bits of it."""
        text, value = text_of(row.block, "ParamDataTypeStr"), number(text_of(row.block, "Gain"))
        source = row.sources.get("1")
        given = self.types[source] if source is not None else None
        if value is None or not isinstance(given, FixType) or not text.startswith("Inherit:"):
            return
        if text == SAME and quantized(value, given) != value or text != SAME and significant(value) > given.magnitude():
            of_number = f"the type of its number {quoted(text_of(row.block, 'Gain'))} is {quoted(text)}"
            simulink = f"Simulink as {quantized(value, given)}, the nearest of {given.text()}" if text == SAME else "Simulink with fewer"
            says = f"{of_number}: mdlc takes it with up to 31 bits after the point, {simulink}."
            self.ignored(row.block, says, "Write ParamDataTypeStr.")

    def accumulator(self, row: Row) -> None:
        """A Sum that is added in the type of its first input, but of two inputs that have the type of its output."""
        found = [self.types[it] for it in row.inputs()]
        if row.block.text("AccumDataTypeStr") == FIRST and (len(found) != 2 or any(it != self.types[row.block] for it in found)):
            says = f"its AccumDataTypeStr is {quoted(FIRST)}: mdlc sums exactly, and converts the sum once."
            self.ignored(row.block, says, "Write the type of the sum at OutDataTypeStr alone.")


def significant(value: Fraction) -> int:
    """The bits of a number between its first and last 1; many where it has no end."""
    if value.denominator & (value.denominator - 1):
        return 1000
    above = abs(value.numerator)
    return (above // (above & -above)).bit_length() if above else 0


def controls_around(row: Row, rows: Rows) -> list[Block]:
    """The blocks on the controls of all subsystems around a row."""
    found = []
    for block in row.around:
        names = controls_of(block.system) if block.system is not None else []
        found += [rows[block].sources[it] for it in names if it in rows[block].sources]
    return found
