"""Random models, right and wrong, given to the built program and to the rules; prints each on which the two differ."""

import re

import model_rows
import model_rules
import model_runs
import model_text
from lustre_models import compare_flows
from mdl_writer import Writer
from model_values import bounds
from random_scripts import compare_drives, some_row

TYPES = [
    "int8", "int16", "int32", "uint8", "uint16", "uint32", "boolean", "fixdt(1,16,4)", "fixdt(0,12,3)",
    "fixdt(true, 32 ,31)", "fixdt(1,2,0)", "fixdt(0,1,0)", "fixdt(0,32,31)", "fixdt(1,31,1)",
]
ODD_TYPES = [
    "double", "single", "half", "Inherit: auto", "Inherit: Logical (see settings)",
    "Inherit: Inherit via back propagation", "Inherit: Same as first input", "fixdt(1,33,0)", "fixdt(1,1,0)",
    "fixdt(0,0,0)", "fixdt(1,8,32)", "fixdt(2,8,0)", "fixdt(1,8)", "Int8", " int8 ", "fixdt (1,8,0)", "fixdt(1,08,0)",
    "fixdt(false,8,0)", "", "Inherit:", "inherit: auto", "fixdt(1,8,0,0)", "fixdt(\t1,8,0)",
]
NUMBERS = [
    "0", "1", "-1", "2.5", "[3]", "1/3", "-7/2", "1e3", "1.5e-3", "true", "false", "+4", ".5", "5.", "1e9", "-1e18",
    "127", "128", "-129", "0.0625", "123456789012345678", "0e99", "[-2.25]", "4294967295", "[1/2]", "-.5",
    "000000000000000000001",
]
ODD_NUMBERS = [
    "", "[]", "1e19", "1e-19", "1234567890123456789", "[ 5]", "[[5]]", "1/0", "1e", "e1", ".", "--1", "1 2", "x",
    "0x10", "1,000", "1.0e-18", "0.1e-18", "1/-2", "[true]", "inf", "1/3.0", "0/5", "00", "1e0000000000000000000018",
    "0e1234567890123456789", "123456789.1234567890", "10e18", "-", "1/", "/1", " 5 ", "2147483647.49", "2147483647.5",
    "-2147483648.5", "-2147483648.51",
]
TIMES = ["-1", "[-1 0]", "[-1, 0]"]
NEAR = ["0.1", "0.2", "[0.4 0.1]", "[0.4, 0.2]", "0.4", "0.8", "3/10", "[0.3 0.2]", "[1.2 0.6]"]
PERIODS = [
    "0.1", "0.2", "1/10", "[0.4 0.1]", "[0.4, 0.2]", "3", "7/3", "[2 1/3]", "1e-3", "999983", "999979", "1/99991",
    "1/99989", "1e6", "1e9",
]
ODD_TIMES = [
    "inf", "[inf 0]", "0", "0.1", "[0.5 0.25]", "[0.5 0.5]", "[0 -1]", "[0 x]", "-2", "[-1]", "[-1,0]", "-1.0", "[1,0]",
    "[1  0]", "[1 , 0]", "1e10", "1/1000000001", "1000000001", "[5]", "Inf", "[Inf 0]", "", "[0]", " -1 ", "[0.1 0",
    "0/3", "-0", "[0,0]", "1000000000", "[3 -1]",
]
SIMPLE = ["Inport", "Outport", "Constant", "Ground", "Terminator", "UnitDelay"]
KINDS = [
    *SIMPLE, "Gain", "Sum", "Product", "Switch", "RelationalOperator", "Logic", "DataTypeConversion", "Delay",
    "ZeroOrderHold", "RateTransition",
]
UNKNOWN = ["SubSystem", "Scope", "inport", "Mux", "", "EnablePort", "TriggerPort"]
COMPUTING = (b"Gain", b"Sum", b"Product", b"Switch", b"RelationalOperator", b"Logic", b"DataTypeConversion")
LENGTHS = ["1", "2", "3", "5", "[2]", "+4", "1.0"]
ODD_LENGTHS = ["0", "-1", "65535", "65536", "1.5", "", "x"]
DIALOG = ["Dialog"], ["Input port", "dialog", ""], 0.1

# Parameters by type of block: lawful texts, others, and how often one is written.
INHERITED_TYPE = ("OutDataTypeStr", TYPES, ODD_TYPES, 0.5)
TRUTH_TYPE = ("OutDataTypeStr", ["boolean", "int8", "int32", "uint16"], ODD_TYPES, 0.3)
TIME = ("SampleTime", TIMES, ODD_TIMES, 0.2)
SIZE = ("PortDimensions", ["-1", "1", "1.0", "[1]"], ["2", "", "[1 1]", "0"], 0.1)
ROUNDING = ("RndMeth", ["Ceiling", "Convergent", "Floor", "Nearest", "Round", "Zero"], ["Simplest", "floor", ""], 0.3)
OVERFLOW = ("SaturateOnIntegerOverflow", ["on", "off"], ["On", "1", ""], 0.3)
PARAMETERS = {
    "Inport": [
        ("OutDataTypeStr", TYPES, ODD_TYPES, 0.97),
        TIME, SIZE,
    ],
    "Outport": [
        ("OutDataTypeStr", ["Inherit: auto"] * 4 + TYPES[:1], ODD_TYPES, 0.2),
        ("OutputWhenDisabled", ["held", "reset"], ["Held", "", "held "], 0.4),
        ("InitialOutput", NUMBERS + ["[]"], ODD_NUMBERS, 0.4),
        TIME, SIZE,
    ],
    "Constant": [
        ("Value", NUMBERS, ODD_NUMBERS, 0.9),
        ("OutDataTypeStr", TYPES, ODD_TYPES, 0.95),
        TIME,
    ],
    "Ground": [],
    "Terminator": [],
    "UnitDelay": [
        ("InitialCondition", NUMBERS, ODD_NUMBERS, 0.6),
        ("X0", NUMBERS, ODD_NUMBERS, 0.2),
        TIME,
    ],
    "Delay": [
        ("DelayLength", LENGTHS, ODD_LENGTHS, 0.8),
        ("DelayLengthSource", *DIALOG),
        ("InitialCondition", NUMBERS, ODD_NUMBERS, 0.6),
        ("X0", NUMBERS, ODD_NUMBERS, 0.1),
        ("InitialConditionSource", *DIALOG),
        ("ExternalReset", ["None"], ["Rising", ""], 0.1),
        TIME,
    ],
    "ZeroOrderHold": [("SampleTime", TIMES, ODD_TIMES, 0.9)],
    "RateTransition": [
        ("Integrity", ["on"], ["off", ""], 0.1),
        ("Deterministic", ["on"], ["off", ""], 0.1),
        ("InitialCondition", NUMBERS, ODD_NUMBERS, 0.6),
        ("X0", NUMBERS, ODD_NUMBERS, 0.1),
        ("OutPortSampleTimeOpt", ["Specify", "Specify", "Inherit"], ["Multiple", ""], 0.2),
        ("OutPortSampleTime", TIMES, ODD_TIMES, 0.7),
    ],
    "EnablePort": [("StatesWhenEnabling", ["held", "reset"], ["Held", ""], 0.7)],
    "TriggerPort": [("TriggerType", ["rising", "falling", "either"], ["both", ""], 0.8)],
    "SubSystem": [("SystemSampleTime", ["-1", "[-1]"], ["0", "1", ""], 0.1)],
    "Gain": [
        ("Gain", NUMBERS, ODD_NUMBERS, 0.9),
        ("ParamDataTypeStr", TYPES + ["Inherit: Same as input"] * 9, ODD_TYPES, 0.3),
        INHERITED_TYPE, ROUNDING, OVERFLOW, TIME,
    ],
    "Sum": [
        (
            "Inputs",
            ["++", "+-", "|++", "1", "3", "|+|-|", "2.0", "--", "[2]"],
            ["", "17", "0", "||", "+ +", "-1", "1.5", "+" * 17, " ++", "+*", "+1"],
            0.8,
        ),
        INHERITED_TYPE, ROUNDING, OVERFLOW, TIME,
    ],
    "Product": [
        ("Inputs", ["2", "1", "**", "***", "3", "+2"], ["", "17", "0", "*/", "/*", "* *", "*|*", "*" * 17], 0.8),
        INHERITED_TYPE, ROUNDING, OVERFLOW, TIME,
    ],
    "Switch": [
        ("Criteria", ["u2 >= Threshold", "u2 > Threshold", "u2 ~= 0"], ["u2>=Threshold", "", "u2 >= Threshold "], 0.5),
        ("Threshold", NUMBERS, ODD_NUMBERS, 0.5),
        INHERITED_TYPE, ROUNDING, OVERFLOW, TIME,
    ],
    "RelationalOperator": [
        ("Operator", ["==", "~=", "<", "<=", ">", ">="], ["!=", "", "=> ", "< "], 0.8),
        TRUTH_TYPE, TIME,
    ],
    "Logic": [
        ("Operator", ["AND", "OR", "NAND", "NOR", "XOR", "NXOR", "NOT"], ["and", "", "NOT "], 0.8),
        ("Inputs", ["1", "2", "3", "16"], ["0", "17", "++", "1.5", "", "true"], 0.5),
        TRUTH_TYPE, TIME,
    ],
    "DataTypeConversion": [
        (
            "ConvertRealWorld",
            ["Real World Value (RWV)", "Real World Value"],
            ["Stored Integer (SI)", "", "real World Value"],
            0.2,
        ),
        ("OutDataTypeStr", TYPES, ODD_TYPES, 0.95),
        ROUNDING, OVERFLOW, TIME,
    ],
}
BYTES = b'"{}[]#\\ \t\r\x00\xff0123456789aZ._$-+e/,'
LINES = [
    b"}", b"{", b"Block {", b'"more"', b"System {", b"Branch {", b"Line {", b'Name "x', b"P [1", b"BlockType Inport",
    b"x y z", b"1a", b"$a.b_ 3", b"Model {", b"a{", b"a {b", b'"a" b', b'N "a" # c', b"FixedStep 0.1", b'SrcBlock "B1"',
    b'Src "a"',
]


def escaped(text):
    """The text as it is between quotes of a model."""
    return text.replace("\\", "\\\\").replace('"', '\\"').replace("\n", "\\n")


class RandomModel(Writer):
    """A random model being written, each line spelled by chance. `wrong` is how often something in it isn't as it should be, `margin` how
    far a line is mostly moved in."""

    def __init__(self, chance):
        super().__init__()
        self.chance, self.margin = chance, 0
        self.wrong = chance.choice([0, 0, 0.005, 0.02, 0.1])
        self.kinds = SIMPLE if self.is_lucky(0.3) else KINDS
        # How deep subsystems go, and whether the system that is written stands in one with a trigger.
        self.depth, self.is_triggered, self.is_inside = chance.choice([0, 0, 1, 2, 3]), False, False
        # A model with subsystems is mostly tidy, since so much may be wrong in it: types are written, and rows use earlier ones.
        self.is_tidy = self.depth > 0 and self.is_lucky(0.9)
        if self.is_tidy:
            self.wrong = chance.choice([0, 0, 0, 0.002])
            self.kinds = [it for it in KINDS if it not in ("Inport", "Ground", "Terminator")]
        self.times = TIMES + (chance.sample(NEAR, 4) if self.is_lucky(0.5) else chance.sample(PERIODS, chance.choice([0, 1, 2, 3])))

    def is_lucky(self, often):
        """True with this chance."""
        return self.chance.random() < often

    def is_wrong(self, share=1):
        """True with this share of the chance that something is wrong."""
        return self.is_lucky(self.wrong * share)

    def add(self, line):
        """Adds a line, mostly moved in, and rarely one that says nothing after it."""
        self.lines.append(("  " * self.margin if self.is_lucky(0.9) else self.chance.choice(["", "\t", " \t "])) + line)
        if self.is_lucky(0.01):
            self.lines.append(self.chance.choice(["", "# a comment", "#}", "   ", '# "']))

    def open(self, section):
        """Opens a section."""
        self.add(self.chance.choice([f"{section} {{", f"{section}{{", f"{section}\t{{"]))
        self.margin += 1

    def close(self):
        """Closes a section."""
        self.margin -= 1
        self.add("}")

    def param(self, name, value):
        """Adds a parameter: its value in quotes, in two pieces of a string, or plain where that may be."""
        gap = self.chance.choice([" ", "\t", "   "])
        is_plain = re.fullmatch(r'[^\s"\[{#]([^"\n]*[^\s{"])?', value) or re.fullmatch(r"\[[^\t\n]*\]", value)
        if is_plain and self.is_lucky(0.3):
            self.add(f"{name}{gap}{value}")
        elif len(value) > 2 and self.is_lucky(0.05):
            cut = self.chance.randrange(1, len(value))
            self.add(f'{name}{gap}"{escaped(value[:cut])}"')
            self.add(f'"{escaped(value[cut:])}"')
        else:
            self.add(f'{name}{gap}"{escaped(value)}"')

    def empty(self, section):
        """Adds a section that holds nothing."""
        self.open(section)
        self.close()

    def some_parameters(self, kind):
        """Parameters of a block of this type: the name and the value of each."""
        for name, lawful, others, often in PARAMETERS.get(kind, []):
            if self.is_tidy and name == "OutDataTypeStr":
                if kind == "Outport" or kind == "Inport" and self.is_inside:
                    lawful, often = ["Inherit: auto"], 0.1
                else:
                    lawful, often = ["boolean", "uint16"] if kind in ("Logic", "RelationalOperator") else lawful, 1
            if self.is_tidy and name in ("SampleTime", "OutPortSampleTime") and kind != "ZeroOrderHold":
                often = 0.05
            if self.is_lucky(often):
                lawful = (TIMES if self.is_triggered else self.times) if name in ("SampleTime", "OutPortSampleTime") else lawful
                yield name, self.chance.choice(others if self.is_wrong() else lawful)

    def some_block(self, kind, name, port):
        """Adds what is in a Block; its port is None where it has none."""
        rows = [] if self.is_wrong(0.25) else [("BlockType", kind)]
        rows += [] if self.is_wrong(0.25) else [("Name", name)]
        if port is not None:
            rows.append(("Port", self.chance.choice([f"{port}"] * 9 + [f"{port}.0", f"+{port}", f"[{port}]"])))
        rows += self.some_parameters(kind)
        if rows and self.is_lucky(0.05):
            rows.append(self.chance.choice(rows))
        if self.is_lucky(0.2):
            self.chance.shuffle(rows)
        for key, value in rows:
            self.param(key, value)
        if kind == "SubSystem" and self.depth > 0 and not self.is_wrong(0.25):
            self.inner_system()
        if self.is_lucky(0.05):
            self.add("Position [1, 2;")
            self.add(" 3, 4]")
        if self.is_lucky(0.02):
            with self.section("Port"):
                self.add("PortNumber 1")

    def inner_system(self):
        """Adds the System of a subsystem, whose parts are moved in as far as those of the root."""
        outside = self.depth, self.is_triggered, self.is_inside
        controls = self.chance.choice([[], [], ["EnablePort"], ["TriggerPort"], ["EnablePort", "TriggerPort"]])
        controls += controls[:1] * self.is_wrong(0.25)
        self.depth, self.is_triggered, self.is_inside = self.depth - 1, self.is_triggered or "TriggerPort" in controls, True
        with self.section("System"):
            self.margin -= 2
            self.parts(controls)
            self.margin += 2
        self.depth, self.is_triggered, self.is_inside = outside

    def defaults(self):
        """Adds the Blocks of BlockParameterDefaults."""
        for _ in range(self.chance.randrange(4)):
            with self.section("Block"):
                self.default()

    def default(self):
        """Adds what is in a Block of BlockParameterDefaults."""
        kind = self.chance.choice(self.kinds)
        if self.is_lucky(0.95):
            self.param("BlockType", kind)
        for name, value in self.some_parameters(kind):
            if self.is_lucky(0.5):
                self.param(name, value)

    def line_end(self, name, port):
        """Adds the end of a Line or Branch at the block of this name; a port is a number or the word of a control."""
        if not self.is_wrong(0.25):
            self.param("DstBlock", "nobody" if self.is_wrong(0.25) else name)
        if not self.is_wrong(0.25):
            lawful = [f"{port}"] if isinstance(port, str) else [f"{port}", f"{port}", f"{port}.0", f"[{port}]", f"+{port}"]
            self.param("DstPort", self.chance.choice(["0", "17", "", "2", "1", "trigger", "-1"] if self.is_wrong() else lawful))

    def branches(self, ends):
        """Adds a Branch for each of these ends, each a name and a port; rarely they branch again."""
        if len(ends) > 1 and self.is_lucky(0.3):
            with self.section("Branch"):
                self.branches(ends[1:])
            ends = ends[:1]
        for end in ends:
            with self.section("Branch"):
                self.line_end(*end)

    def some_line(self, source, port, ends):
        """Adds what is in a Line from this port of a block to these ends, each a name and a port."""
        if not self.is_wrong(0.25):
            self.param("SrcBlock", self.chance.choice(["nobody", ""]) if self.is_wrong(0.25) else source)
        if not self.is_wrong(0.25):
            lawful = [f"{port}", f"{port}", f"{port}.0", f"[{port}]", f"+{port}"]
            self.param("SrcPort", self.chance.choice(["2", "0", "", "x", "enable", "1.5"] if self.is_wrong() else lawful))
        if self.is_wrong(0.125):
            self.param(self.chance.choice(["Src", "Dst"]), "4#out:1")
        if len(ends) > 1:
            self.branches(ends)
        else:
            self.line_end(*ends[0])

    def taken(self, section, write, *words):
        """The lines of a section in which this writes, taken off again."""
        before = len(self.lines)
        with self.section(section):
            write(*words)
        found = self.lines[before:]
        del self.lines[before:]
        return found

    def some_kinds(self, controls):
        """The types of a system's blocks; `controls` are the control ports of a subsystem, None in the root."""
        kinds = self.chance.choices(self.kinds, k=self.chance.choice([0, 1, 2, 3, 5, 8, *([13, 20] if self.depth < 2 else [])]))
        kinds += ["Inport", "Outport"] * self.is_lucky(0.5 if controls is None else 0.9) + ["Outport"] * (controls is not None)
        kinds += controls or []
        if self.depth > 0:
            kinds += ["SubSystem"] * self.chance.choice([0, 1, 1, 2, 3]) + ["RelationalOperator", "Logic"]
        kinds += [self.chance.choice(["Inport", "Outport"])] * self.chance.choice([30, 31, 32, 33]) * self.is_lucky(0.01)
        self.chance.shuffle(kinds)
        if self.is_tidy:
            kinds += ["Inport"] * self.chance.choice([0, 1, 2, 3])
            kinds.sort(key=lambda it: 0 if it in ("Inport", "Constant") else 2 if it == "Outport" else 1)
        return [self.chance.choice(UNKNOWN) if self.is_wrong(0.25) else it for it in kinds]

    def some_names(self, count):
        """So many names of blocks, mostly different ones."""
        names = []
        for at in range(count):
            new = self.chance.choice([f"B{at}", f"block {at}", f"n\n{at}", f'"q"{at}', f"x\\{at}", f"{at}"])
            names.append(self.chance.choice(names) if names and self.is_wrong(0.3) else new)
        return names

    def some_ports(self, kinds):
        """The number of each Inport and Outport, by its place among the blocks of these types."""
        ports = {}
        for kind in ("Inport", "Outport"):
            places = [at for at, it in enumerate(kinds) if it == kind]
            numbers = self.chance.sample(range(1, len(places) + 1), len(places))
            wrong = [0, 1, len(places) + 1, 2]
            ports |= {at: self.chance.choice(wrong) if self.is_wrong() else it for at, it in zip(places, numbers)}
        return ports

    def some_ends(self, blocks):
        """Line ends as a source and its port, a destination and its port. A trigger mostly gets a truth."""
        sources = [(at, port) for at, it in enumerate(blocks) for port in outputs_of(it)]
        truths = [it for it in sources if blocks[it[0]].kind in (b"RelationalOperator", b"Logic")]
        for at, block in enumerate(blocks):
            for port in inputs_of(block):
                earlier = [it for it in sources if it[0] < at]
                if sources and not self.is_wrong(0.5):
                    yield self.some_source(at, port, blocks, sources, earlier, truths), at, port
                    if self.is_wrong(0.25):
                        yield self.chance.choice(sources), at, port

    def some_source(self, at, port, blocks, sources, earlier, truths):
        """The source of a port of the block at this place, one of `sources`; `earlier` and `truths` are some of these."""
        if port in ("enable", "trigger") and truths and self.is_lucky(0.95 if self.is_tidy else 0.8):
            return self.chance.choice(truths)
        inner = [it for it in sources if blocks[it[0]].kind in (b"SubSystem", b"UnitDelay", b"Delay", b"Sum")]
        if self.is_tidy and blocks[at].kind == b"Outport" and inner and self.is_lucky(0.8):
            return self.chance.choice(inner)
        if self.is_tidy and earlier:
            with_type = [it for it in sources if blocks[it[0]].kind in COMPUTING]
            goes_back = with_type and blocks[at].kind in (b"UnitDelay", b"Delay") and self.is_lucky(0.5)
            return self.chance.choice(with_type if goes_back else earlier[-6:] if self.is_lucky(0.99) else sources)
        return self.chance.choice(earlier if earlier and self.is_lucky(0.7) else sources)

    def parts(self, controls=None):
        """Adds what is in a System; `controls` are the control ports of a subsystem, None in the root."""
        kinds = self.some_kinds(controls)
        names, ports = self.some_names(len(kinds)), self.some_ports(kinds)
        parts = [self.taken("Block", self.some_block, kind, names[at], ports.get(at)) for at, kind in enumerate(kinds)]
        ends = list(self.some_ends([row_of(kind, part) for kind, part in zip(kinds, parts)]))
        self.chance.shuffle(ends)
        while ends:
            first = ends.pop()
            same = [it for it in ends if it[0] == first[0]] if self.is_lucky(0.4) else []
            ends = [it for it in ends if it not in same]
            targets = [(names[at], port) for _, at, port in [first, *same]]
            at, port = first[0]
            parts.append(self.taken("Line", self.some_line, names[at], port, targets))
        if self.is_lucky(0.1):
            parts.append(["Annotation {", '  Name "note"', "}"])
        if self.is_lucky(0.1):
            parts.append(["Line {", '  SrcBlock "nobody"' if self.is_wrong() else '  Name "loose"', "}"])
        if self.is_lucky(0.15):
            self.chance.shuffle(parts)
        self.lines += [line for part in parts for line in part]

    def model(self):
        """Adds what is in a Model."""
        self.param("Name", "m")
        if self.is_lucky(0.2):
            self.param("FixedStep", self.chance.choice(["auto", "0.1", "1", "-1", "0", "x", "1/3", "2e9"]))
        if self.is_lucky(0.3 if not self.is_tidy else 0.03):
            with self.section("BlockParameterDefaults"):
                self.defaults()
        with self.section("System"):
            self.parts()
        if self.is_lucky(0.03):
            self.empty("System")

    def written(self):
        """The bytes of a whole file."""
        if self.is_lucky(0.02):
            self.empty(self.chance.choice(["Library", "Other"]))
        with self.section("Model"):
            self.model()
        if self.is_lucky(0.01):
            self.empty("Model")
        end = "\r\n" if self.is_lucky(0.05) else "\n"
        return (end.join(self.lines) + end * self.is_lucky(0.9)).encode("latin1")


def row_of(kind, lines):
    """The row that a block is by its own text."""
    section = model_text.read("\n".join(lines).encode("latin1")).sections[0]
    section.params.insert(0, (b"BlockType", kind.encode()))
    row = model_rows.Row(section, {}, None)
    systems = section.all(b"System") if kind == "SubSystem" else []
    row.system = model_rows.System(systems[0], row, {}) if systems else None
    return row


def inputs_of(row):
    """The ports of its inputs, the controls last."""
    if row.kind not in model_rows.PARAMETERS:
        return []
    found = row.inputs()
    return [*range(1, (2 if found is None else found) + 1), *(row.system.controls() if row.system else [])]


def outputs_of(row):
    """The ports of its outputs."""
    if row.kind == b"SubSystem":
        return range(1, len(row.system.of_kind(b"Outport")) + 1) if row.system else []
    return [] if row.kind in (b"Outport", b"Terminator", b"EnablePort", b"TriggerPort") else [1]


def with_byte(chance, line):
    """The line with one byte more, less, or another one."""
    changed = bytearray(line)
    at = chance.randrange(len(line) + 1)
    changed[at : at + chance.choice([0, 1])] = chance.choice([b"", bytes([chance.choice(BYTES)])])
    return bytes(changed)


def damaged(chance, data):
    """The text with a few of its lines changed."""
    lines = data.split(b"\n")
    for _ in range(chance.choice([1, 1, 2, 4])):
        at, other = chance.randrange(len(lines)), chance.randrange(len(lines))
        what = chance.randrange(7)
        if what == 0:
            lines[at : at + 1] = []
        elif what == 1:
            lines.insert(at, lines[other])
        elif what == 2:
            lines[at], lines[other] = lines[other], lines[at]
        elif what == 3:
            lines.insert(at, chance.choice(LINES))
        elif what == 4:
            lines[at:] = []
        elif what == 5:
            lines[at] += chance.choice([b" ", b"\r", b" }", b" {", b" x", b"\t"])
        else:
            lines[at] = with_byte(chance, lines[at])
        lines = lines or [b""]
    return b"\n".join(lines)


def bad_line(chance, types):
    """A line that is no row, and its cause."""
    fields, at = [str(max(0, bounds(it)[0])) for it in types], chance.randrange(len(types))
    least, greatest = bounds(types[at])
    forms = ["x", "+1", "1234567890123456789", "-", "1.0", "--1"]
    bad = chance.choice([("Range", [str(least - 1), str(greatest + 1)]), ("Form", forms), ("Count", None)])
    if bad[0] == "Count":
        return " ".join([*fields, "0"]), f"Count {len(types) + 1}"
    fields[at] = chance.choice(bad[1])
    return " ".join(fields), f"{bad[0]} {at + 1}"


def compare_runs(chance, model, program):
    """What differs where the program runs an accepted model, or None."""
    types = [row.type for row in model.ports(b"Inport")]
    trace = [some_row(chance, types) for _ in range(chance.choice([0, 1, 2, 4, 8, 16, 32]))]
    lines = [" ".join(map(str, it)) for it in trace]
    run = model_runs.Run(model)
    wanted = "".join(f"{run.tick(it)}\n" for it in trace)
    if types and chance.random() < 0.2:
        line, cause = bad_line(chance, types)
        words = program.files("".join(f"{it}\n" for it in [*lines, line]))
        return program.differs(["run", *words], 4, f"{wanted}trace line {len(lines) + 1} {cause}\n")
    words = program.files("".join(f"{it}\n" for it in lines))
    status, text = program.call("run", *words)
    found = re.fullmatch(re.escape(wanted) + r"ticks (\d+) steps (\d+) calls (\d+)\n", text)
    ticks, steps, calls = map(int, found.groups()) if found else (0, 0, 0)
    bound = 12 * (len(model.rows) + 1) * (1 + max(len(it.of_kind(b"Outport")) for it in model.systems))
    if status or not found or ticks != len(trace) or calls != run.calls or steps > ticks * bound:
        return "run", wanted, status, text
    by_gcc = program.differs_by_gcc(chance, trace, len(model.ports(b"Outport")), wanted, warns=True)
    again = by_gcc or program.differs(["exec", *words[1:]], 0, text)
    return again or compare_flows(chance, model, program, trace, wanted)


def compare_one(chance, program):
    """The kind of a random model, and what differs, or None."""
    data = RandomModel(chance).written()
    data = damaged(chance, data) if chance.random() < 0.3 else data
    program.write("model", data)
    wanted = model_rules.verdict(data)
    if isinstance(wanted, str):
        return wanted.split()[0], program.differs(["compile", *program.files("")[:2]], 3, f"refused {wanted}\n")
    text = f"compiled rows {len(wanted.rows)} systems {len(wanted.systems)} functions {wanted.functions()}\n"
    difference = program.differs(["compile", *program.files("")[:2]], 0, text) or compare_runs(chance, wanted, program)
    return "accepted" if len(wanted.systems) == 1 else "with subsystems", difference or compare_drives(chance, wanted, program)
