"""The blocks of a model's file with their parameters, and its systems, by the rules of docs/FORMATS.md."""

import re
from functools import cached_property

from model_values import BLANKS, CONSTANT, INHERITED, nearest, number, time_of, type_of, whole

SAME = b"Inherit: Same as input"
FIRST = b"Inherit: Same as first input"
TIME = ("SampleTime", b"-1")
HOW = (("RndMeth", b"Floor"), ("SaturateOnIntegerOverflow", b"off"), TIME)

# The parameters of each type of block with their defaults, in the order in which they are checked.
PARAMETERS = {
    b"Inport": (("Port", b"1"), ("OutDataTypeStr", b"Inherit: auto"), TIME, ("PortDimensions", b"-1")),
    b"Outport": (
        ("Port", b"1"),
        ("OutDataTypeStr", b"Inherit: auto"),
        TIME,
        ("PortDimensions", b"-1"),
        ("OutputWhenDisabled", b"held"),
        ("InitialOutput", b"[]"),
    ),
    b"Constant": (("Value", b"1"), ("OutDataTypeStr", b"Inherit: Inherit from 'Constant value'"), ("SampleTime", b"inf")),
    b"Ground": (),
    b"Terminator": (),
    b"UnitDelay": (("InitialCondition", b"0"), TIME),
    b"Delay": (
        ("DelayLength", b"2"),
        ("DelayLengthSource", b"Dialog"),
        ("InitialCondition", b"0"),
        ("InitialConditionSource", b"Dialog"),
        ("ExternalReset", b"None"),
        TIME,
    ),
    b"ZeroOrderHold": (("SampleTime", b"1"),),
    b"RateTransition": (
        ("Integrity", b"on"),
        ("Deterministic", b"on"),
        ("InitialCondition", b"0"),
        ("OutPortSampleTimeOpt", b"Specify"),
        ("OutPortSampleTime", b"-1"),
    ),
    b"SubSystem": (("SystemSampleTime", b"-1"),),
    b"EnablePort": (("StatesWhenEnabling", b"held"),),
    b"TriggerPort": (("TriggerType", b"rising"),),
    b"Gain": (("Gain", b"1"), ("ParamDataTypeStr", SAME), ("OutDataTypeStr", SAME), *HOW),
    b"Sum": (("Inputs", b"++"), ("OutDataTypeStr", FIRST), *HOW),
    b"Product": (("Inputs", b"2"), ("OutDataTypeStr", FIRST), *HOW),
    b"Switch": (("Criteria", b"u2 >= Threshold"), ("Threshold", b"0"), ("OutDataTypeStr", FIRST), *HOW),
    b"RelationalOperator": (("Operator", b">="), ("OutDataTypeStr", b"boolean"), TIME),
    b"Logic": (("Operator", b"AND"), ("Inputs", b"2"), ("OutDataTypeStr", b"boolean"), TIME),
    b"DataTypeConversion": (
        ("OutDataTypeStr", b"Inherit: Inherit via back propagation"),
        ("ConvertRealWorld", b"Real World Value (RWV)"),
        *HOW,
    ),
}
CONTROLS = (b"EnablePort", b"TriggerPort")
CONTROL_NAMES = {"enable": b"EnablePort", "trigger": b"TriggerPort"}
WITHOUT_VALUE = (b"Ground", b"Terminator", b"SubSystem", *CONTROLS)
TRUTHS = (b"RelationalOperator", b"Logic")
ONE_INPUT = (b"Outport", b"Terminator", b"UnitDelay", b"Delay", b"ZeroOrderHold", b"RateTransition", b"Gain", b"DataTypeConversion")
INPUTS = dict.fromkeys(ONE_INPUT, 1) | {b"Switch": 3, b"RelationalOperator": 2}
WORDS = {
    "OutputWhenDisabled": (b"held", b"reset"),
    "StatesWhenEnabling": (b"held", b"reset"),
    "TriggerType": (b"rising", b"falling", b"either"),
    "DelayLengthSource": (b"Dialog",),
    "InitialConditionSource": (b"Dialog",),
    "ExternalReset": (b"None",),
    "Integrity": (b"on",),
    "Deterministic": (b"on",),
    "OutPortSampleTimeOpt": (b"Specify", b"Inherit"),
    "RndMeth": (b"Ceiling", b"Convergent", b"Floor", b"Nearest", b"Round", b"Zero"),
    "SaturateOnIntegerOverflow": (b"on", b"off"),
    "Criteria": (b"u2 >= Threshold", b"u2 > Threshold", b"u2 ~= 0"),
}
OPERATORS = {
    b"RelationalOperator": (b"==", b"~=", b"<", b"<=", b">", b">="),
    b"Logic": (b"AND", b"OR", b"NAND", b"NOR", b"XOR", b"NXOR", b"NOT"),
}


class Row:
    """A block of a system, with its line and its parameters as the file has them."""

    def __init__(self, section, defaults, owner):
        self.line, self.kind = section.line, section.param(b"BlockType")
        self.own, self.defaults = section, defaults.get(self.kind)
        # The rows on its inputs, by port, and those of its controls by `enable` and `trigger`.
        self.sources = {}
        # The subsystem that holds the row, or None, and the system that a subsystem has.
        self.owner, self.system = owner, None

    def written(self, name):
        """The text that stands for a parameter in the file, or None."""
        names = [name, "X0"] if name == "InitialCondition" and not self.is_kind(b"Delay") else [name]
        texts = [place.param(it.encode()) for place in (self.own, self.defaults) if place for it in names]
        return next((it for it in texts if it is not None), None)

    def has(self, name):
        """Whether a block of this kind has a parameter of this name."""
        return name in dict(PARAMETERS[self.kind])

    def text(self, name):
        """The text of a parameter, its default where the file has none; bytes."""
        found = self.written(name)
        return dict(PARAMETERS[self.kind])[name] if found is None else found

    def time_text(self):
        """'inherited', 'constant', or the period and the offset that it writes: a RateTransition those of its output."""
        if self.is_kind(b"Ground"):
            return CONSTANT
        if self.is_kind(b"RateTransition"):
            return time_of(self.text("OutPortSampleTime")) if self.text("OutPortSampleTimeOpt") == b"Specify" else INHERITED
        return time_of(self.text("SampleTime")) if self.has("SampleTime") else INHERITED

    def has_period(self):
        """Whether the row has a sample time of its own."""
        return isinstance(self.time_text(), tuple)

    def is_kind(self, *kinds):
        """Whether it is of one of these kinds."""
        return self.kind in kinds

    def around(self):
        """The subsystems around the row, the inmost first."""
        return [self.owner, *self.owner.around()] if self.owner else []

    def inputs(self):
        """How many inputs the row has besides its controls, or None where the text that says so isn't of its form."""
        if self.is_kind(b"SubSystem"):
            return len(self.system.of_kind(b"Inport")) if self.system else 0
        if self.is_kind(b"Sum"):
            return count_of_inputs(self.text("Inputs"), rb"[+-]")
        if self.is_kind(b"Product"):
            return count_of_inputs(self.text("Inputs"), rb"\*")
        if self.is_kind(b"Logic"):
            return 1 if self.text("Operator") == b"NOT" else count_of_inputs(self.text("Inputs"), None)
        return INPUTS.get(self.kind, 0)


def count_of_inputs(text, sign):
    """A whole number from 1 to 16, or as many signs, with bars among those of a Sum; else None."""
    count = whole(text)
    if count is None and sign is not None:
        bare = text.replace(b"|", b"") if sign == rb"[+-]" else text
        count = len(bare) if re.fullmatch(sign + rb"+", bare) else None
    return count if count is not None and 1 <= count <= 16 else None


def is_of_form(row, name, counts):
    """Whether the text of a parameter is of its form; `counts` has how many ports of each kind the row's system has."""
    text = row.text(name)
    if name == "Port":
        port = whole(text)
        return port is not None and 1 <= port <= counts[row.kind]
    if name == "SystemSampleTime":
        return whole(text) == -1
    if name == "PortDimensions":
        return whole(text) in (-1, 1)
    if name in ("OutDataTypeStr", "ParamDataTypeStr"):
        type = type_of(text)
        return type is not None and not (row.is_kind(*TRUTHS) and isinstance(type, tuple) and type[2])
    if name == "DelayLength":
        return whole(text) is not None and 1 <= whole(text) <= 65535
    if name in ("SampleTime", "OutPortSampleTime"):
        time = time_of(text)
        return time is not None and (time != CONSTANT or row.is_kind(b"Constant"))
    if name == "Gain":
        gain = number(text)
        return gain is not None and -(2**31) <= nearest(gain) < 2**31
    if name == "InitialOutput":
        return text.strip(BLANKS) == b"[]" or number(text) is not None
    if name == "Operator":
        return text in OPERATORS[row.kind]
    if name == "ConvertRealWorld":
        return text.startswith(b"Real World Value")
    if name == "Inputs":
        return row.inputs() is not None
    return text in WORDS[name] if name in WORDS else number(text) is not None


class System:
    """The rows that stand directly in a System, and its lines. `owner` is the subsystem that has it, or None."""

    def __init__(self, section, owner, defaults):
        self.owner, self.section = owner, section
        self.lines, self.rows, self.children = section.all(b"Line"), [], []
        for block in section.all(b"Block"):
            row = Row(block, defaults, owner)
            self.rows.append(row)
            systems = block.all(b"System") if row.is_kind(b"SubSystem") else []
            if systems:
                row.system = System(systems[0], row, defaults)
                self.children.append(row.system)

    def all_systems(self):
        """The system and those inside it at any depth, in the order of the file."""
        return [self, *(it for child in self.children for it in child.all_systems())]

    def all_rows(self):
        """Its rows and those inside it at any depth, in the order of the file."""
        return [it for row in self.rows for it in [row, *(row.system.all_rows() if row.system else [])]]

    def of_kind(self, *kinds):
        """Its own rows of these kinds."""
        return [row for row in self.rows if row.is_kind(*kinds)]

    def ports(self, kind):
        """Its Inports or Outports by port."""
        return sorted(self.of_kind(kind), key=lambda row: whole(row.text("Port")))

    def port(self, kind, number):
        """Its Inport or Outport with this port."""
        return next(row for row in self.of_kind(kind) if whole(row.text("Port")) == number)

    def controls(self):
        """The names of the controls that it holds."""
        return [name for name, kind in CONTROL_NAMES.items() if self.of_kind(kind)]

    @cached_property
    def profile(self):
        """The inputs and the outputs of each output function, by its least output; the controls are inputs of each besides."""
        outputs = {}
        for row in self.ports(b"Outport"):
            needed = self.needed_by(row)
            outputs.setdefault(tuple(it for it in self.ports(b"Inport") if it in needed), []).append(row)
        return list(outputs.items())

    def functions(self):
        """How many output functions it has."""
        return len(self.profile)

    @cached_property
    def inside(self):
        """Its rows and all below."""
        return set(self.all_rows())

    def needs_of(self, row):
        """The rows in the system that a row's value needs, without those beyond its inputs and controls."""
        is_input = row.is_kind(b"Inport") and row.owner is self.owner
        wires = [] if is_input or row.delays else list(row.sources.values())
        wires += [wire for e in row.around() if e in self.inside for wire in controls_of(e)]
        return [it for it in wires if it in self.inside]

    def needed_by(self, row):
        """The rows in the system that a row reaches by needs in it."""
        seen, todo = set(), [row]
        while todo:
            at = todo.pop()
            if at not in seen:
                seen.add(at)
                todo += self.needs_of(at)
        return seen


def controls_of(row):
    """The rows on the controls of a subsystem."""
    return [row.sources[it] for it in row.system.controls()]
