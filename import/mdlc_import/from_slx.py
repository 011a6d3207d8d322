"""The model that the parts of an SLX file have."""

from .findings import Finding, Refusal, Word, quoted
from .from_mdl import MOST_BLOCKS, MOST_DEEP, port_name
from .model import Block, Mask, Model, Port, System, path_part
from .xml_tree import Element, read_xml

DIAGRAM = "simulink/blockdiagram.xml"
DEFAULTS = "simulink/bddefaults.xml"
SYSTEMS = "simulink/systems/"


def model_of(parts: dict[str, bytes], name: str) -> Model:
    """The model of an SLX file whose own name is given; raises a Refusal."""
    if DIAGRAM not in parts:
        raise Refusal("file", f"the archive has no part {DIAGRAM}, so it is no SLX file")
    top = read_xml(DIAGRAM, parts[DIAGRAM])
    section = top.first("Model")
    if section is None:
        is_library = top.first("Library") is not None
        raise Refusal(DIAGRAM, "this is a library; give the file of a model" if is_library else "there is no Model")
    root = section.first("System")
    if root is None:
        raise Refusal(DIAGRAM, "the Model holds no System")
    model = Model(name, System(name), setting(parts, section, "FixedStep"))
    model.has_booleans = setting(parts, section, "BooleanDataType") != "off"
    Builder(model, parts, defaults_of(parts, section)).build(root)
    return model


def defaults_of(parts: dict[str, bytes], section: Element) -> dict[str, dict[str, str]]:
    """The parameters that blocks of each BlockType have where they don't write them, in either place."""
    places = [section.first("BlockParameterDefaults")]
    if places[0] is None and DEFAULTS in parts:
        top = read_xml(DEFAULTS, parts[DEFAULTS])
        places = [top if top.tag == "BlockParameterDefaults" else top.first("BlockParameterDefaults")]
    found: dict[str, dict[str, str]] = {}
    for block in [block for it in places if it is not None for block in it.all("Block")]:
        found.setdefault(block.attributes.get("BlockType", ""), block.properties())
    return found


def setting(parts: dict[str, bytes], section: Element, name: str) -> str | None:
    """The first setting of a name outside the systems, as FixedStep: of the model's own part, else of those of its configurations."""
    found = setting_below(section, name)
    for part in sorted(it for it in parts if it.startswith("simulink/configSet") and not it.endswith("Info.xml")):
        if found is None:
            found = setting_below(read_xml(part, parts[part]), name)
    return found


def setting_below(top: Element, name: str) -> str | None:
    """The first setting of a name at any depth below an element, outside systems."""
    todo = [top]
    while todo:
        element = todo.pop()
        if element.tag == "P" and element.attributes.get("Name") == name:
            return element.text
        todo += reversed([it for it in element.inside if it.tag != "System"])
    return None


def mask_of(element: Element, own: dict[str, str]) -> Mask | None:
    """The mask of a block, in either of its two forms."""
    names = [it for it in own.get("MaskVariables", "").split(";") if it]
    pairs = [(it.partition("=")[0], text if "=@" in it else "") for it, text in zip(names, own.get("MaskValueString", "").split("|"))]
    code = own.get("MaskInitialization", "")
    mask = element.first("Mask")
    if mask is not None:
        written = mask.first("Initialization")
        code += written.text if written is not None else ""
        for one in mask.all("MaskParameter"):
            value = one.first("Value")
            text = value.text if value is not None and one.attributes.get("Evaluate", "on") == "on" else ""
            pairs.append((one.attributes.get("Name", ""), text))
    return Mask(tuple(pairs), bool(code.strip())) if pairs or code.strip() else None


class Builder:
    """Fills a model from the elements of its systems, which are in one part or in parts of their own."""

    def __init__(self, model: Model, parts: dict[str, bytes], defaults: dict[str, dict[str, str]]) -> None:
        self.model, self.parts, self.defaults = model, parts, defaults
        self.blocks = 0
        self.read: set[str] = set()

    def content(self, element: Element) -> Element:
        """A system's element, or the one in the part that it names."""
        name = element.attributes.get("Ref")
        if name is None:
            return element
        part = f"{SYSTEMS}{name}.xml"
        if part not in self.parts:
            raise Refusal(DIAGRAM, f"the part {part} is missing")
        if part in self.read:
            raise Refusal(part, "two subsystems have this one part")
        self.read.add(part)
        return read_xml(part, self.parts[part])

    def build(self, root: Element) -> None:
        """The root system and all below it."""
        todo = [(self.model.root, root, path_part(self.model.name), 0)]
        while todo:
            system, element, path, depth = todo.pop()
            content = self.content(element)
            numbers: dict[str, Block] = {}
            for opened in content.all("Block"):
                block = self.block(opened, path)
                system.blocks.append(block)
                numbers.setdefault(opened.attributes.get("SID", ""), block)
                inner = opened.first("System") if block.kind == "SubSystem" else None
                if inner is not None:
                    if depth == MOST_DEEP:
                        raise Refusal(block.place, f"a subsystem inside {MOST_DEEP} others; draw its blocks in the one around it (F5)")
                    block.system = System(block.name)
                    todo.append((block.system, inner, f"{path}/{path_part(block.name)}", depth + 1))
            self.lines(system, content, numbers, path)

    def block(self, element: Element, path: str) -> Block:
        """A block without what is inside it."""
        self.blocks += 1
        if self.blocks > MOST_BLOCKS:
            raise Refusal("file", f"more than {MOST_BLOCKS} blocks; cut the model in two (F6)")
        own = element.properties()
        data = element.first("InstanceData")
        for name, text in (data.properties() if data is not None else {}).items():
            own.setdefault(name, text)
        kind = element.attributes.get("BlockType", "")
        name, place = element.attributes.get("Name", ""), f"SID {element.attributes.get('SID', '?')}"
        block = Block(kind, name, place, own, self.defaults.get(kind, {}), mask=mask_of(element, own))
        if "Name" not in element.attributes:
            self.model.says(Word.REFUSED, path, block, "it has no Name (F8).", "Give it one.")
        return block

    def lines(self, system: System, content: Element, numbers: dict[str, Block], path: str) -> None:
        """The lines of a system, whose blocks are known."""
        for line in content.all("Line"):
            source = self.end(line, "Src", numbers, path)
            todo = [line]
            while todo:
                branch = todo.pop()
                end = self.end(branch, "Dst", numbers, path)
                if source and end:
                    self.connect(system, path, source, end)
                todo += reversed(branch.all("Branch"))

    def connect(self, system: System, path: str, source: Port, end: Port) -> None:
        """Draws a line, or says that its input has one already."""
        if end in system.sources:
            self.model.says(Word.REFUSED, path, end.block, f"a second line to input {end.name} (F12)", "Take out one of them.")
        else:
            system.sources[end] = source

    def end(self, element: Element, side: str, numbers: dict[str, Block], path: str) -> Port | None:
        """The port that a line or a branch names on one side, or None."""
        text = element.properties().get(side)
        if text is None:
            return None
        number, _, name = text.partition("#")
        if number not in numbers:
            says = f"no block with SID {quoted(number)} is in this system (F10)."
            finding = Finding(Word.REFUSED, f"SID {number}", path, "Line", says, "Draw the line to a block that is there.")
            self.model.findings.append(finding)
            return None
        return Port(numbers[number], port_name(name))
