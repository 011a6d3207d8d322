"""What mdlc reads of each block, what mdlc-import rewrites besides, and which options neither reads."""

from collections.abc import Mapping
from dataclasses import dataclass
from enum import Enum, auto


class Form(Enum):
    """The form of a parameter's text."""

    NUMBER = auto()
    INITIAL_OUTPUT = auto()
    WHOLE = auto()
    TYPE = auto()
    TIME = auto()
    INPUTS = auto()
    WORD = auto()
    CONVERSION = auto()


@dataclass(frozen=True)
class Parameter:
    """A parameter that mdlc reads. `words` are the texts that a WORD may be."""

    name: str
    default: str
    form: Form
    words: tuple[str, ...] = ()


def number_of(name: str, default: str) -> Parameter:
    """A parameter that is a number."""
    return Parameter(name, default, Form.NUMBER)


def type_of(default: str, name: str = "OutDataTypeStr") -> Parameter:
    """A parameter that is a type."""
    return Parameter(name, default, Form.TYPE)


def whole_of(name: str, default: str) -> Parameter:
    """A parameter that is a whole number."""
    return Parameter(name, default, Form.WHOLE)


def word_of(name: str, *words: str) -> Parameter:
    """A parameter that is one of these words, by default the first."""
    return Parameter(name, words[0], Form.WORD, words)


SAME, FIRST, AUTO = "Inherit: Same as input", "Inherit: Same as first input", "Inherit: auto"
TIME = Parameter("SampleTime", "-1", Form.TIME)
ROUNDINGS = ("Floor", "Ceiling", "Convergent", "Nearest", "Round", "Zero")
HOW = (word_of("RndMeth", *ROUNDINGS), word_of("SaturateOnIntegerOverflow", "off", "on"), TIME)
COMPARISONS = (">=", "==", "~=", "<", "<=", ">")
TRUTHS = ("AND", "OR", "NAND", "NOR", "XOR", "NXOR", "NOT")
CRITERIA = ("u2 >= Threshold", "u2 > Threshold", "u2 ~= 0")

# The blocks of mdlc with their parameters, in the order of docs/FORMATS.md.
NATIVE: Mapping[str, tuple[Parameter, ...]] = {
    "Inport": (whole_of("Port", "1"), type_of(AUTO), TIME, whole_of("PortDimensions", "-1")),
    "Outport": (
        whole_of("Port", "1"), type_of(AUTO), TIME, whole_of("PortDimensions", "-1"), word_of("OutputWhenDisabled", "held", "reset"),
        Parameter("InitialOutput", "[]", Form.INITIAL_OUTPUT),
    ),
    "SubSystem": (whole_of("SystemSampleTime", "-1"),),
    "Constant": (number_of("Value", "1"), type_of("Inherit: Inherit from 'Constant value'"), Parameter("SampleTime", "inf", Form.TIME)),
    "Ground": (),
    "Terminator": (),
    "UnitDelay": (number_of("InitialCondition", "0"), TIME),
    "Delay": (
        whole_of("DelayLength", "2"), word_of("DelayLengthSource", "Dialog"), number_of("InitialCondition", "0"),
        word_of("InitialConditionSource", "Dialog"), word_of("ExternalReset", "None"), TIME,
    ),
    "ZeroOrderHold": (Parameter("SampleTime", "1", Form.TIME),),
    "Gain": (number_of("Gain", "1"), type_of(SAME, "ParamDataTypeStr"), type_of(SAME), *HOW),
    "Sum": (Parameter("Inputs", "++", Form.INPUTS), type_of(FIRST), *HOW),
    "Product": (Parameter("Inputs", "2", Form.INPUTS), type_of(FIRST), *HOW),
    "Switch": (word_of("Criteria", *CRITERIA), number_of("Threshold", "0"), type_of(FIRST), *HOW),
    "RelationalOperator": (word_of("Operator", *COMPARISONS), type_of("boolean"), TIME),
    "Logic": (word_of("Operator", *TRUTHS), Parameter("Inputs", "2", Form.INPUTS), type_of("boolean"), TIME),
    "DataTypeConversion": (
        type_of("Inherit: Inherit via back propagation"), Parameter("ConvertRealWorld", "Real World Value (RWV)", Form.CONVERSION), *HOW,
    ),
    "RateTransition": (
        word_of("Integrity", "on"), word_of("Deterministic", "on"), number_of("InitialCondition", "0"),
        word_of("OutPortSampleTimeOpt", "Specify", "Inherit"), Parameter("OutPortSampleTime", "-1", Form.TIME),
    ),
    "EnablePort": (word_of("StatesWhenEnabling", "held", "reset"),),
    "TriggerPort": (word_of("TriggerType", "rising", "falling", "either"),),
}

# The blocks that become small subsystems. Their limits and constants are read where they are drawn.
RULE = "Inherit: Inherit via internal rule"
EPS = "1/4503599627370496"
DRAWN: Mapping[str, tuple[Parameter, ...]] = {
    "Saturate": (number_of("UpperLimit", "0.5"), number_of("LowerLimit", "-0.5"), type_of(SAME), HOW[0], TIME),
    "MinMax": (word_of("Function", "min", "max"), Parameter("Inputs", "1", Form.INPUTS), type_of(RULE), *HOW),
    "Abs": (type_of(SAME), *HOW),
    "CompareToConstant": (word_of("relop", "<=", *COMPARISONS), number_of("const", "3"), type_of("boolean")),
    "CompareToZero": (word_of("relop", "<=", *COMPARISONS), type_of("boolean")),
    "Bias": (number_of("Bias", "0"), HOW[1], TIME),
    "Signum": (TIME,),
    "Relay": (
        number_of("OnSwitchValue", EPS), number_of("OffSwitchValue", EPS), number_of("OnOutputValue", "1"),
        number_of("OffOutputValue", "0"), type_of("Inherit: All ports same datatype"), TIME,
    ),
    "DiscreteIntegrator": (
        word_of("IntegratorMethod", "Integration: Forward Euler", "ForwardEuler", "Accumulation: Forward Euler"), number_of("gainval", "1"),
        word_of("ExternalReset", "none"), word_of("InitialConditionSource", "internal"), number_of("InitialCondition", "0"),
        Parameter("SampleTime", "1", Form.TIME), word_of("LimitOutput", "off", "on"), number_of("UpperSaturationLimit", "inf"),
        number_of("LowerSaturationLimit", "-inf"), word_of("ShowSaturationPort", "off"), word_of("ShowStatePort", "off"), type_of(RULE),
        HOW[0], HOW[1],
    ),
}
KNOWN: Mapping[str, tuple[Parameter, ...]] = {**NATIVE, **DRAWN}
INFINITE = {("Saturate", "UpperLimit"), ("Saturate", "LowerLimit"), ("DiscreteIntegrator", "UpperSaturationLimit"),
            ("DiscreteIntegrator", "LowerSaturationLimit")}

SINKS = ("Scope", "Display", "ToWorkspace", "ToFile", "FloatingScope")
# References to blocks of Simulink's own library, by the last part of SourceBlock.
LIBRARY = {"Compare To Constant": "CompareToConstant", "Compare To Zero": "CompareToZero"}
NOTES = ("DocBlock", "Model Info")

# Ways in which a word may be written, as mdlc reads it.
SPELLINGS = {
    "u2>=Threshold": "u2 >= Threshold",
    "u2>Threshold": "u2 > Threshold",
    "u2~=0": "u2 ~= 0",
}

# Where a BlockType isn't taken: what to draw instead.
ADVICE = {
    "": "Give it a BlockType.",
    "Reference": "Break the link to its library, so that the model holds the blocks.",
    "Goto": "Draw the line.",
    "From": "Draw the line.",
    "GotoTagVisibility": "Draw the lines, and take it out.",
    "Mux": "Draw a line for each signal: there are no vectors.",
    "Demux": "Draw a line for each signal: there are no vectors.",
    "Selector": "Draw a line for each signal: there are no vectors.",
    "BusCreator": "Draw a line for each signal: there are no buses.",
    "BusSelector": "Draw a line for each signal: there are no buses.",
    "Bitwise Operator": "Draw it from Logic and Gain blocks on the bits, or compute it outside.",
    "S-Function": "Draw it from blocks of mdlc, or compute it outside and pass it through Inports.",
    "Integrator": "Take a DiscreteIntegrator by forward Euler.",
    "TransferFcn": "Make it discrete, and draw it from Sum, Gain and UnitDelay.",
    "DiscreteTransferFcn": "Draw it from Sum, Gain and UnitDelay.",
    "DiscreteFilter": "Draw it from Sum, Gain and UnitDelay.",
    "Merge": "Take a Switch.",
    "MultiPortSwitch": "Take several Switch blocks.",
    "ModelReference": "Draw the model as a subsystem.",
    "Lookup": "Draw it from Switch, Gain and Sum blocks, one for each piece.",
    "Lookup_n-D": "Draw it from Switch, Gain and Sum blocks, one for each piece.",
    "StopSimulation": "Lead the signal to an Outport.",
    "Step": "Lead the signal in by an Inport.",
    "SignalGenerator": "Lead the signal in by an Inport.",
    "Clock": "Lead the time in by an Inport, or count ticks by a Sum and a UnitDelay.",
    "Fcn": "Draw it from Sum, Product and Gain.",
    "Math": "Draw it from Sum, Product and Gain.",
    "ActionPort": "Take an EnablePort.",
    "If": "Take RelationalOperator and Logic blocks, with enabled subsystems.",
    "ForIterator": "Draw the steps one after another.",
    "WhileIterator": "Draw the steps one after another.",
}
OTHER_ADVICE = "Draw it from blocks of mdlc, in docs/FORMATS.md."


class Effect(Enum):
    """What an option that isn't read does to a model."""

    REFUSED = auto()
    TOLD = auto()


@dataclass(frozen=True)
class Option:
    """An option that mdlc passes over. It is harmless where its text is one of these, or where it isn't written."""

    name: str
    harmless: tuple[str, ...]
    effect: Effect
    says: str
    instead: str


def structural(name: str, says: str, instead: str, *harmless: str) -> Option:
    """An option that makes another diagram of it."""
    return Option(name, harmless or ("off",), Effect.REFUSED, says, instead)


ANY = "any block"
OUTPUT_PORT = Option("ShowOutputPort", ("off",), Effect.TOLD, "mdlc has no output at this port", "Lead the signal in by an Inport.")
COMPLEX = structural("SignalType", "complex signals aren't there", "Write `auto` or `real`.", "auto", "real")
OPTIONS: Mapping[str, tuple[Option, ...]] = {
    ANY: (
        structural("VariantControl", "it is one of several variants", "Keep the chosen one alone, and clear VariantControl.", ""),
    ),
    "SubSystem": (
        structural("Variant", "one of the blocks in it is chosen", "Keep the chosen one alone, and switch Variant off."),
    ),
    "Inport": (
        COMPLEX,
        structural("OutputFunctionCall", "function calls aren't there", "Take an enabled or a triggered subsystem."),
        structural("LatchByDelayingOutsideSignal", "it latches its input", "Draw a UnitDelay outside."),
        structural("LatchByCopyingInsideSignal", "it latches its input", "Draw a UnitDelay outside."),
        structural("LatchInputForFeedbackSignals", "it latches its input", "Draw a UnitDelay outside."),
    ),
    "Outport": (COMPLEX,),
    "EnablePort": (OUTPUT_PORT,),
    "TriggerPort": (OUTPUT_PORT,),
    "Delay": (structural("ShowEnablePort", "it has an enable of its own", "Put it into an enabled subsystem."),),
    "Sum": (
        Option("AccumDataTypeStr", (RULE, FIRST, ""), Effect.TOLD, "mdlc sums exactly, and converts the sum once",
               "Write the type of the sum at OutDataTypeStr alone."),
    ),
}
