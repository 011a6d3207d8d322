"""Blocks that mdlc doesn't have, drawn as small subsystems of blocks that it has, with the same numbers."""

from collections.abc import Mapping, Sequence
from fractions import Fraction

from .catalogue import DRAWN
from .findings import Word, quoted
from .formats import BOOLEAN, FixType, number, number_text, period_and_offset
from .graph import Row, text_of
from .model import Block, Model, Port, System
from .routing import kept
from .sample_times import outmost_trigger, times_before
from .signal_types import Found

INFINITE = ("inf", "-inf")


class CannotDraw(Exception):
    """A block can't be drawn; the text says why."""


class Drawing:
    """The inside of a block: its Inports are there, and blocks are added one by one."""

    def __init__(self, block: Block, inputs: int) -> None:
        self.block, self.system = block, System(block.name)
        self.time = {"SampleTime": text_of(block, "SampleTime")} if period_and_offset(text_of(block, "SampleTime")) is not None else {}
        self.inputs = [self.add("Inport", f"In{at}", (), Port=str(at)) for at in range(1, inputs + 1)]

    def add(self, kind: str, name: str, sources: Sequence[Port], **parameters: str) -> Port:
        """A block with its inputs; gives its output."""
        timed = {} if kind in ("Inport", "Outport", "Constant") else self.time
        block = Block(kind, name, self.block.place, written={**parameters, **timed})
        self.system.blocks.append(block)
        self.connect(block, sources)
        return Port(block, "1")

    def connect(self, block: Block, sources: Sequence[Port]) -> None:
        """Lines to the inputs of a block."""
        self.system.sources.update({Port(block, str(at)): source for at, source in enumerate(sources, 1)})

    def constant(self, name: str, text: str, wanted: FixType) -> Port:
        """A number of a type."""
        return self.add("Constant", name, (), Value=text, OutDataTypeStr=wanted.text())

    def switch(self, name: str, wanted: FixType, one: Port, test: Port, other: Port, criteria: str = "u2 ~= 0") -> Port:
        """One value where a test holds, else the other."""
        return self.add("Switch", name, (one, test, other), Criteria=criteria, OutDataTypeStr=wanted.text())

    def compare(self, name: str, one: Port, sign: str, other: Port, **parameters: str) -> Port:
        """The truth of a comparison."""
        return self.add("RelationalOperator", name, (one, other), Operator=sign, **parameters)

    def converted(self, name: str, source: Port, given: FixType, wanted: FixType, **how: str) -> Port:
        """A value in a type: itself, where it has it."""
        if given == wanted:
            return source
        return self.add("DataTypeConversion", name, (source,), OutDataTypeStr=wanted.text(), **how)

    def limited(self, source: Port, wanted: FixType, lower: str, upper: str) -> Port:
        """A value between two limits, either of which may be infinite."""
        found = source
        if lower not in INFINITE:
            least = self.constant("Lower", lower, wanted)
            found = self.switch("Not below", wanted, least, self.compare("Is below", source, "<", least), found)
        if upper not in INFINITE:
            greatest = self.constant("Upper", upper, wanted)
            found = self.switch("Not above", wanted, greatest, self.compare("Is above", source, ">", greatest), found)
        return found

    def finish(self, output: Port, wanted: FixType) -> None:
        """The block becomes a subsystem with this output. Where that is an input as it is, type and time are written at the Outport."""
        typed = {"OutDataTypeStr": wanted.text(), **self.time} if output in self.inputs else {}
        self.add("Outport", "Out1", (output,), **typed)
        self.block.kind, self.block.system = "SubSystem", self.system
        self.block.own, self.block.defaults, self.block.written = kept(self.block), {}, {}


class Artist:
    """Draws the blocks of a model whose types are known."""

    def __init__(self, model: Model, rows: Mapping[Block, Row], types: Mapping[Block, Found]) -> None:
        self.model, self.rows, self.types = model, rows, types
        self.times = times_before(rows) if any(it.kind == "DiscreteIntegrator" for it in rows) else {}

    def draw(self) -> None:
        """All blocks that can be drawn; says why others can't."""
        drawers = {
            "Saturate": self.saturate, "MinMax": self.min_max, "Abs": self.absolute, "CompareToConstant": self.compare_to_constant,
            "CompareToZero": self.compare_to_zero, "Bias": self.bias, "Signum": self.sign, "Relay": self.relay,
            "DiscreteIntegrator": self.integrator,
        }
        for block in [it for it in self.rows if it.kind in DRAWN]:
            row = self.rows[block]
            types = [BOOLEAN if it.kind == "Ground" else self.types[it] for it in row.inputs()]
            wanted = self.types[block]
            given = [it for it in types if isinstance(it, FixType)]
            try:
                if isinstance(wanted, FixType) and given and len(given) == len(types):
                    drawers[block.kind](row, given, wanted)
                    self.type_of_grounds(row)
                elif not self.model.is_refused():
                    raise CannotDraw("the types of its inputs aren't known.")
            except CannotDraw as fault:
                self.model.says(Word.REFUSED, row.path, block, str(fault))

    @staticmethod
    def type_of_grounds(row: Row) -> None:
        """The Inports of a drawn block that a Ground enters write a type, since it has none."""
        inports = row.block.system.of_kind("Inport") if row.block.system is not None else []
        for inport, source in zip(inports, row.inputs()):
            if source.kind == "Ground":
                inport.written["OutDataTypeStr"] = BOOLEAN.text()

    @staticmethod
    def how(block: Block) -> dict[str, str]:
        """The rounding and the saturation of a block."""
        return {it: text_of(block, it) for it in ("RndMeth", "SaturateOnIntegerOverflow")}

    @staticmethod
    def limits(block: Block, lower: str, upper: str) -> tuple[str, str]:
        """The texts of two limits in order."""
        texts = text_of(block, lower), text_of(block, upper)
        values = [number(it) for it in texts]
        if values[0] is not None and values[1] is not None and values[0] > values[1] or texts[0] == "inf" or texts[1] == "-inf":
            raise CannotDraw(f"{lower} {quoted(texts[0])} is above {upper} {quoted(texts[1])}.")
        return texts

    @staticmethod
    def fitting(block: Block, name: str, wanted: FixType) -> str:
        """The text of a number that must be in the range of a type."""
        text = text_of(block, name)
        value = number(text)
        if value is None or not wanted.holds(value):
            raise CannotDraw(f"{name} {quoted(text)} isn't in the range of {wanted.text()}.")
        return text

    def saturate(self, row: Row, given: list[FixType], wanted: FixType) -> None:
        """The input in the output's type, and then between the limits in that type."""
        lower, upper = self.limits(row.block, "LowerLimit", "UpperLimit")
        drawing = Drawing(row.block, 1)
        how = {"RndMeth": text_of(row.block, "RndMeth"), "SaturateOnIntegerOverflow": "on"}
        value = drawing.converted("Converted", drawing.inputs[0], given[0], wanted, **how)
        drawing.finish(drawing.limited(value, wanted, lower, upper), wanted)

    def min_max(self, row: Row, given: list[FixType], wanted: FixType) -> None:
        """Each input in the output's type, and then one after another the least or the greatest."""
        block = row.block
        if text_of(block, "OutDataTypeStr").startswith("Inherit:") and len(set(given)) > 1:
            types = ", ".join(it.text() for it in given)
            own = quoted(text_of(block, "OutDataTypeStr"))
            raise CannotDraw(f"its inputs have the types {types}, and its own is {own}; write OutDataTypeStr.")
        sign, how = {"min": "<", "max": ">"}[text_of(block, "Function")], self.how(block)
        drawing = Drawing(block, len(given))
        values = [drawing.converted(f"Converted{at}", it, given[at - 1], wanted, **how) for at, it in enumerate(drawing.inputs, 1)]
        found = values[0]
        for at, value in enumerate(values[1:], 2):
            found = drawing.switch(f"Best of {at}", wanted, value, drawing.compare(f"Is better {at}", value, sign, found), found)
        drawing.finish(found, wanted)

    def absolute(self, row: Row, given: list[FixType], wanted: FixType) -> None:
        """The input or its negative, each converted once from the exact number."""
        drawing, how = Drawing(row.block, 1), self.how(row.block)
        value = drawing.inputs[0]
        found = drawing.converted("Plus", value, given[0], wanted, **how)
        if given[0].signed:
            minus = drawing.add("Sum", "Minus", (value,), Inputs="-", OutDataTypeStr=wanted.text(), **how)
            found = drawing.switch("Choose", wanted, found, value, minus, "u2 >= Threshold")
        drawing.finish(found, wanted)

    def compare_to_constant(self, row: Row, given: list[FixType], wanted: FixType) -> None:
        """The input compared with a number in the input's type."""
        self.comparison(row, given[0], self.fitting(row.block, "const", given[0]), wanted)

    def compare_to_zero(self, row: Row, given: list[FixType], wanted: FixType) -> None:
        """The input compared with 0."""
        self.comparison(row, given[0], "0", wanted)

    def comparison(self, row: Row, given: FixType, text: str, wanted: FixType) -> None:
        """The input compared with a constant."""
        drawing = Drawing(row.block, 1)
        constant = drawing.constant("Constant", text, given)
        truth = drawing.compare("Compare", drawing.inputs[0], text_of(row.block, "relop"), constant, OutDataTypeStr=wanted.text())
        drawing.finish(truth, wanted)

    def bias(self, row: Row, given: list[FixType], wanted: FixType) -> None:
        """The input and a number in its type, summed."""
        text, drawing = self.fitting(row.block, "Bias", given[0]), Drawing(row.block, 1)
        saturates = text_of(row.block, "SaturateOnIntegerOverflow")
        sources = drawing.inputs[0], drawing.constant("Bias", text, wanted)
        total = drawing.add("Sum", "Sum", sources, OutDataTypeStr=wanted.text(), SaturateOnIntegerOverflow=saturates)
        drawing.finish(total, wanted)

    def sign(self, row: Row, _given: list[FixType], wanted: FixType) -> None:
        """1, 0 or -1 in the input's type."""
        if wanted.highest() < 1 or wanted.signed and wanted.lowest() > -1:
            raise CannotDraw(f"{wanted.text()} has no 1 and -1.")
        drawing = Drawing(row.block, 1)
        value = drawing.inputs[0]
        found = drawing.constant("Zero", "0", wanted)
        if wanted.signed:
            minus = drawing.constant("Minus one", "-1", wanted)
            found = drawing.switch("Not below", wanted, found, value, minus, "u2 >= Threshold")
        found = drawing.switch("Above", wanted, drawing.constant("One", "1", wanted), value, found, "u2 > Threshold")
        drawing.finish(found, wanted)

    def relay(self, row: Row, given: list[FixType], wanted: FixType) -> None:
        """On from one threshold, off down to the other, and else as before; off at first."""
        block = row.block
        names = ("OffSwitchValue", "OnSwitchValue")
        self.limits(block, *names)
        off, on = (self.fitting(block, it, given[0]) for it in names)
        low, high = (self.fitting(block, it, wanted) for it in ("OffOutputValue", "OnOutputValue"))
        drawing = Drawing(block, 1)
        value = drawing.inputs[0]
        is_high = drawing.compare("Is on", value, ">=", drawing.constant("On at", on, given[0]))
        is_low = drawing.compare("Is off", value, "<=", drawing.constant("Off at", off, given[0]))
        was_on = drawing.add("UnitDelay", "Was on", ())
        stays = drawing.add("Logic", "Isn't off", (is_low,), Operator="NOT")
        kept_on = drawing.add("Logic", "Stays on", (was_on, stays), Operator="AND")
        now_on = drawing.add("Logic", "On", (is_high, kept_on), Operator="OR")
        drawing.connect(was_on.block, (now_on,))
        outputs = drawing.constant("On output", high, wanted), drawing.constant("Off output", low, wanted)
        drawing.finish(drawing.switch("Output", wanted, outputs[0], now_on, outputs[1]), wanted)

    def integrator(self, row: Row, _given: list[FixType], wanted: FixType) -> None:
        """The state of before, and then the state and the input times gain and period, each in the output's type, between the limits."""
        block, how = row.block, self.how(row.block)
        gain = self.gain(row)
        lower, upper = "-inf", "inf"
        if text_of(block, "LimitOutput") == "on":
            lower, upper = self.limits(block, "LowerSaturationLimit", "UpperSaturationLimit")
        drawing = Drawing(block, 1)
        state = drawing.add("UnitDelay", "State", (), InitialCondition=clipped(text_of(block, "InitialCondition"), lower, upper))
        step = drawing.add("Gain", "Step", drawing.inputs, Gain=gain, OutDataTypeStr=wanted.text(), **how)
        total = drawing.add("Sum", "Next", (state, step), OutDataTypeStr=wanted.text(), **how)
        drawing.connect(state.block, (drawing.limited(total, wanted, lower, upper),))
        drawing.finish(state, wanted)

    def gain(self, row: Row) -> str:
        """The gain of an integrator times its period, as mdlc reads it."""
        gain = number(text_of(row.block, "gainval")) or Fraction(0)
        if not text_of(row.block, "IntegratorMethod").startswith("Accumulation"):
            gain *= self.period(row)
        text = number_text(gain)
        if text is None or not -(2**31) <= gain < 2**31 - 1:
            raise CannotDraw("its gain times its period is no number that mdlc reads.")
        return text

    def period(self, row: Row) -> Fraction:
        """The period of an integrator: its own, that of its input, or the base step."""
        if outmost_trigger(row) is not None:
            raise CannotDraw("it is in a triggered subsystem, so the time between its steps isn't known.")
        written = period_and_offset(text_of(row.block, "SampleTime"))
        found = written if written is not None else self.times.get(row.block)
        period = found[0] if found is not None else number(self.model.step or "")
        if not period:
            raise CannotDraw("its period isn't known; write its SampleTime.")
        return period


def clipped(text: str, lower: str, upper: str) -> str:
    """A number between two limits, by their texts."""
    value, least, greatest = number(text), number(lower), number(upper)
    if value is not None and least is not None and value < least:
        return lower
    return upper if value is not None and greatest is not None and value > greatest else text
