"""The parameters of blocks as mdlc reads them: expressions are computed, types of old releases are brought into the form of today."""

import re
from fractions import Fraction

from .catalogue import ADVICE, ANY, CRITERIA, DRAWN, INFINITE, KNOWN, OPTIONS, OTHER_ADVICE, SPELLINGS, Effect, Form, Parameter
from .findings import Word, quoted
from .formats import BLANKS, CONSTANT_TIMES, FLOATS, INHERITED_TIMES, NAMED, fixed_type, is_small, nearest, number, number_text
from .formats import period_and_offset, whole
from .model import Block, Model, path_part
from .values import NoValue, Number, Scope, TypeValue, list_values, named_type, number_value, point_of, type_value

MOST_INPUTS = 16
INFINITY = re.compile(r"[+-]?inf", re.I)
CONSTANT_TIME = re.compile(r"\[?[ \t]*inf[ \t]*(?:[,; \t][ \t]*0[ \t]*)?\]?", re.I)
OLD_CALL = re.compile(r"(sfix|ufix|sint|uint)\([ \t]*(\d{1,3})[ \t]*\)")
OLD_FLOAT = re.compile(r"float\([ \t]*'?(\w+)'?[ \t]*\)")
DIALOG = "Specify via dialog"
# How old releases write a type: the parameters that may say how, those that have the type, and the scaling.
OLD_WAYS = {
    "OutDataTypeStr": (
        ("OutDataTypeMode", "OutputDataTypeScalingMode", "LogicOutDataTypeMode", "DataType"), ("OutDataType", "LogicDataType"),
        "OutScaling",
    ),
    "ParamDataTypeStr": (("ParameterDataTypeMode",), ("ParameterDataType",), "ParameterScaling"),
}
OLD_NAMES = {"Boolean": "boolean", "auto": "Inherit: auto", "Inherit from input": "Inherit: Same as input"}


def settle_parameters(model: Model, scope: Scope, reasons: dict[Block, str]) -> None:
    """Gives each block its written parameters, and tells what isn't taken. `reasons` are those of the routing."""
    scopes: dict[Block, Scope] = {}
    for system, path, around in model.systems():
        here = scopes[around[-1]] if around else scope
        is_conditional = bool(system.of_kind("EnablePort") or system.of_kind("TriggerPort"))
        for block in system.blocks:
            settler = Settler(model, path, block, here)
            settler.settle(reasons.get(block), is_conditional and bool(around))
            if block.system is not None:
                scopes[block] = inner_scope(block, here)
    if model.step is not None:
        settle_step(model, scope)


def settle_step(model: Model, scope: Scope) -> None:
    """FixedStep as a number; `auto` is nothing."""
    text = (model.step or "").strip(BLANKS)
    model.step = None
    if text in ("auto", "-1", ""):
        return
    block, path = Block("", "FixedStep", "model"), path_part(model.name)
    try:
        found = number(text)
        step = number_value(text, scope).value if found is None else found
        if step <= 0:
            raise NoValue("a step is above 0")
        settled = written_time(step)
        model.step = text if found is not None else settled
        if found is None:
            model.says(Word.REWRITTEN, path, block, f"it is {quoted(text)}, which mdlc passes over.", f"mdlc-import writes `{settled}`.")
    except NoValue as fault:
        model.says(Word.IGNORED, path, block, f"it is {quoted(text)}: {fault}. mdlc passes over it.", "Write a number.")


def written_time(value: Fraction) -> str:
    """A period or an offset as mdlc reads it."""
    text = number_text(value)
    if text is None or not is_small(value):
        raise NoValue("it has more digits than a time may have")
    return text


def inner_scope(block: Block, around: Scope) -> Scope:
    """The names inside a subsystem: those of its mask, and those around it."""
    if block.mask is None:
        return around
    names: dict[str, Number | TypeValue | NoValue] = {}
    for name, text in block.mask.variables:
        try:
            names[name] = number_value(text, around)
        except NoValue as fault:
            names[name] = NoValue(f"{quoted(name)} of the mask of {quoted(block.name)}: {fault}")
    return Scope(names, around, block.mask.has_code)


class Settler:
    """Reads the parameters of one block."""

    def __init__(self, model: Model, path: str, block: Block, scope: Scope) -> None:
        self.model, self.path, self.block, self.scope = model, path, block, scope

    def says(self, word: Word, says: str, instead: str = "") -> None:
        """Tells something about the block."""
        self.model.says(word, self.path, self.block, says, instead)

    def settle(self, reason: str | None, is_conditional: bool) -> None:
        """All parameters and options; `is_conditional` says that the system around is one with a control."""
        block = self.block
        if block.kind == "Memory":
            self.says(Word.REWRITTEN, "mdlc has no block of this type (F7).", "mdlc-import writes a UnitDelay.")
            start = self.raw("InitialCondition") or "0"
            block.kind, block.own, block.defaults = "UnitDelay", {**block.own, "InitialCondition": start, "SampleTime": "-1"}, {}
        if block.kind not in KNOWN:
            advice = ADVICE.get(block.kind, OTHER_ADVICE)
            if block.kind == "Reference":
                reason = f"it is a link to {quoted(block.text('SourceBlock') or '')} (F7)."
            self.says(Word.REFUSED, reason or "mdlc has no block of this type (F7).", advice)
            return
        if block.kind == "SubSystem" and block.system is None:
            self.says(Word.REFUSED, "it holds no System (F7).")
        if block.kind in DRAWN and "SourceBlock" not in block.own:
            self.says(Word.REWRITTEN, "mdlc has no block of this type (F7).", "mdlc-import draws a subsystem that computes it.")
        for parameter in sorted(KNOWN[block.kind], key=lambda it: it.form is not Form.TYPE):
            self.parameter(parameter)
        self.options(is_conditional)

    def options(self, is_conditional: bool) -> None:
        """What mdlc passes over."""
        for option in (*OPTIONS[ANY], *OPTIONS.get(self.block.kind, ())):
            text = self.block.text(option.name)
            if text is not None and text not in option.harmless:
                word = Word.REFUSED if option.effect is Effect.REFUSED else Word.IGNORED
                self.says(word, f'`{option.name} "{text}"`, which mdlc passes over: {option.says}.', option.instead)
        if self.block.kind == "Outport" and is_conditional:
            self.initial_output()

    def initial_output(self) -> None:
        """What an Outport of an enabled or triggered subsystem gives before the first run."""
        if (self.block.text("SourceOfInitialOutputValue") or "Dialog") != "Dialog":
            says = '`SourceOfInitialOutputValue "Input signal"`, which mdlc passes over: it takes InitialOutput.'
            self.says(Word.REFUSED, says, "Write `Dialog` and the number as InitialOutput.")
        elif (self.block.text("InitialOutput") or "[]").strip(BLANKS) == "[]":
            says = "`InitialOutput []` is 0 to mdlc, where Simulink takes what the driving block starts with."
            self.says(Word.IGNORED, says, "Write the number.")

    def parameter(self, parameter: Parameter) -> None:
        """One parameter: its text as mdlc reads it goes into `written`."""
        text = self.type_text(parameter) if parameter.form is Form.TYPE else self.raw(parameter.name)
        if text is None:
            return
        if parameter.name == "RndMeth" and text == "Simplest":
            self.block.rounds_as_it_likes = True
            return
        try:
            settled = self.settled(parameter, text)
        except NoValue as fault:
            self.block.broken.add(parameter.name)
            self.says(Word.REFUSED, f"{parameter.name} is {quoted(text)}: {fault}{self.number_of_refusal()}.")
            return
        if settled != text.strip(BLANKS) or parameter.form is Form.WORD and settled != text:
            says = f"{parameter.name} is {quoted(text)}, which mdlc doesn't read{self.number_of_refusal()}."
            self.says(Word.REWRITTEN, says, f"mdlc-import writes {quoted(settled)}.")
        self.block.written[parameter.name] = settled

    def number_of_refusal(self) -> str:
        """The number by which mdlc refuses a parameter of this block, if it knows the block."""
        return "" if self.block.kind in DRAWN else " (F8)"

    def raw(self, name: str) -> str | None:
        """The text of a parameter in the file. An initial condition may be called X0."""
        block = self.block
        if name == "InitialCondition" and block.kind != "Delay":
            places = [place.get(it) for place in (block.own, block.defaults) for it in (name, "X0")]
            return next((it for it in places if it is not None), None)
        return block.text(name)

    def settled(self, parameter: Parameter, text: str) -> str:
        """The text that mdlc reads; raises NoValue."""
        bare = text.strip(BLANKS)
        match parameter.form:
            case Form.NUMBER | Form.INITIAL_OUTPUT:
                return bare if parameter.form is Form.INITIAL_OUTPUT and bare == "[]" else self.number(parameter.name, bare)
            case Form.WHOLE:
                return bare if whole(bare) is not None else self.whole_number(bare)
            case Form.TIME:
                return self.time(bare)
            case Form.INPUTS:
                return self.inputs(text)
            case Form.TYPE:
                return self.type(bare)
            case Form.CONVERSION:
                if not text.startswith("Real World Value"):
                    raise NoValue("mdlc converts what numbers mean, and not as they are stored")
                return text
            case Form.WORD:
                return word(parameter, text)

    def number(self, name: str, text: str) -> str:
        """A number."""
        if (self.block.kind, name) in INFINITE and INFINITY.fullmatch(text):
            return text.lower().removeprefix("+")
        if (found := number(text)) is not None:
            value, settled = Number(found), text
        else:
            values = list_values(text, self.scope)
            if len(values) != 1:
                raise NoValue("mdlc has no vectors")
            value, settled = values[0], number_text(values[0].value) or ""
        if not settled:
            raise NoValue("mdlc can't read its exact number, which has more than 18 digits")
        if name == "Gain" and not -(2**31) <= nearest(value.value) < 2**31:
            raise NoValue("the nearest whole number isn't one of 32 bits with a sign")
        if self.block.kind == "Constant" and name == "Value":
            return self.constant(value, settled)
        return settled

    def constant(self, value: Number, text: str) -> str:
        """The Value of a Constant. Where its type is that of the value, the class of the value is written as its type."""
        inherited = self.block.written.get("OutDataTypeStr", "Inherit: Inherit from").startswith("Inherit: Inherit from")
        if value.kind == "boolean" and inherited:
            return "true" if value.value else "false"
        if value.kind in NAMED and inherited:
            self.block.written["OutDataTypeStr"] = value.kind
        return text

    def whole_number(self, text: str) -> str:
        """A whole number that is an expression."""
        value = number_value(text, self.scope).value
        if value.denominator != 1:
            raise NoValue("it is no whole number")
        return str(value)

    def time(self, text: str) -> str:
        """A sample time."""
        is_constant = self.block.kind == "Constant"
        if text in INHERITED_TIMES or is_constant and text in CONSTANT_TIMES or period_and_offset(text) is not None:
            return text
        if CONSTANT_TIME.fullmatch(text):
            if not is_constant:
                raise NoValue("only a Constant may have the time `inf`")
            return "inf"
        values = [it.value for it in list_values(text, self.scope)]
        if values in ([-1], [-1, 0]):
            return "-1"
        if values == [-1, -1]:
            raise NoValue("this says that the block is triggered; write `-1` in a triggered subsystem")
        if len(values) not in (1, 2) or values[0] < 0 or values[0] and not 0 <= sum(values[1:]) < values[0]:
            raise NoValue("a sample time is a period, or a period and an offset below it, or -1")
        parts = [written_time(it) for it in values]
        return parts[0] if len(parts) == 1 or values[1] == 0 else f"[{parts[0]} {parts[1]}]"

    def inputs(self, text: str) -> str:
        """The inputs of a block: a number, or signs."""
        signs = {"Sum": "+-", "Product": "*"}.get(self.block.kind, "")
        bare = text.replace("|", "") if self.block.kind == "Sum" else text
        if signs and bare and set(bare) <= set(signs):
            if len(bare) > MOST_INPUTS:
                raise NoValue(f"more than {MOST_INPUTS} inputs")
            return text
        if self.block.kind == "Product" and "/" in text:
            raise NoValue("mdlc has no division")
        if self.block.kind == "Sum" and set("+-") & set(text) and not re.search(r"\w", text):
            raise NoValue("signs are `+` and `-`, with `|` for gaps")
        settled = text if whole(text) is not None else self.whole_number(text)
        if not 1 <= (whole(settled) or 0) <= MOST_INPUTS:
            raise NoValue(f"a block has 1 to {MOST_INPUTS} inputs")
        return settled

    def type(self, text: str) -> str:
        """A type. Inherited and floating-point ones are left for later rules."""
        if text.startswith("Inherit:") or text in FLOATS:
            return text
        found = fixed_type(text)
        settled = text
        if found is None:
            value = self.evaluated_type(text)
            settled = value.text()
            found = fixed_type(settled)
        if self.block.kind in ("RelationalOperator", "Logic", "CompareToConstant", "CompareToZero") and found is not None and found.point:
            raise NoValue("a truth has no bits after the point")
        return settled

    def evaluated_type(self, text: str) -> TypeValue:
        """A type that is an expression, with its reasons in the words of types."""
        if text in ("int64", "uint64"):
            raise NoValue("types have at most 32 bits")
        if re.match(r"(Enum|Bus|<data type expression>):?", text):
            raise NoValue("mdlc has fixed-point types alone")
        return type_value(text, self.scope)

    def type_text(self, parameter: Parameter) -> str | None:
        """The text of a type: that of today's parameter, else what old releases write in its place; the block's own first."""
        if parameter.name not in OLD_WAYS:
            return self.block.text(parameter.name)
        modes, _, _ = OLD_WAYS[parameter.name]
        for place in (self.block.own, self.block.defaults):
            if parameter.name in place:
                return place[parameter.name]
            mode = next((place[it] for it in modes if it in place), None)
            if mode is not None:
                return self.of_old_release(parameter, mode)
        return None

    def of_old_release(self, parameter: Parameter, mode: str) -> str:
        """The type that an old release writes, as today's text."""
        text = OLD_NAMES.get(mode) or (mode if mode in NAMED or mode in FLOATS else f"Inherit: {mode}")
        if mode == DIALOG:
            try:
                text = self.scaled(parameter).text()
            except NoValue as fault:
                self.block.broken.add(parameter.name)
                self.says(Word.REFUSED, f"its type is written as old releases do: {fault}.", f"Write {parameter.name}.")
                return parameter.default
        if text != parameter.default:
            says = f"its type is written as old releases do, which mdlc passes over ({quoted(mode)})."
            self.says(Word.REWRITTEN, says, f'mdlc-import writes `{parameter.name} "{text}"`.')
        return text

    def scaled(self, parameter: Parameter) -> TypeValue:
        """The type and scaling of an old release."""
        _, types, scaling = OLD_WAYS[parameter.name]
        texts = [self.block.text(it) for it in types]
        text = next((it for it in texts if it is not None), "")
        if floating := OLD_FLOAT.fullmatch(text):
            return TypeValue(named_type(floating[1]))
        call = OLD_CALL.fullmatch(text)
        if not call:
            return type_value(text, self.scope)
        point = 0
        if call[1] in ("sfix", "ufix"):
            numbers = [it.value for it in list_values(self.block.text(scaling) or "2^0", self.scope)]
            point = point_of(numbers[0], sum(numbers[1:], Fraction(0)))
        sign = int(call[1] in ("sfix", "sint"))
        return type_value(f"fixdt({sign},{call[2]},{point})", self.scope)


def word(parameter: Parameter, text: str) -> str:
    """One of the words of a parameter."""
    settled = SPELLINGS.get("".join(text.split()), text) if parameter.words == CRITERIA else text
    if settled not in parameter.words:
        raise NoValue(f"it may be {', '.join(f'`{it}`' for it in dict.fromkeys(parameter.words))}")
    return settled
