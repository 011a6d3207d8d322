"""The model that a text has."""

from .findings import Finding, Refusal, Word, quoted
from .formats import whole
from .mdl_text import Section
from .model import Block, Mask, Model, Port, System, path_part

MOST_BLOCKS, MOST_DEEP = 20_000, 32


def model_of(tree: Section) -> Model:
    """The model of a text; raises a Refusal where it has none, or more than one."""
    section = model_section(tree)
    root = section.first("System")
    if root is None:
        raise Refusal(f"line {section.line}", "the Model holds no System (F3)")
    defaults = defaults_of(section)
    model = Model(section.parameters().get("Name", "model"), System(""), setting(section, root, "FixedStep"))
    model.has_booleans = setting(section, root, "BooleanDataType") != "off"
    Builder(model, defaults).build(root)
    return model


def model_section(tree: Section) -> Section:
    """The one Model at the top."""
    models, libraries = tree.sections("Model"), tree.sections("Library")
    if libraries:
        raise Refusal(f"line {libraries[0].line}", "this is a Library; give the file of a model (F4)")
    if not models:
        raise Refusal("file", "there is no section Model at the top; give the whole file of a model (F3)")
    if len(models) > 1:
        raise Refusal(f"line {models[1].line}", "a second Model; give each model a file of its own (F4)")
    return models[0]


def defaults_of(section: Section) -> dict[str, dict[str, str]]:
    """The parameters that blocks of each BlockType have where they don't write them."""
    found: dict[str, dict[str, str]] = {}
    defaults = section.first("BlockParameterDefaults")
    for block in defaults.sections("Block") if defaults else []:
        parameters = block.parameters()
        found.setdefault(parameters.pop("BlockType", ""), parameters)
    return found


def setting(section: Section, root: Section, name: str) -> str | None:
    """The first setting of a name in the model, as FixedStep, at any depth, outside its root system."""
    todo: list[Section | tuple[str, str]] = list(reversed(section.items))
    while todo:
        item = todo.pop()
        if isinstance(item, Section):
            todo += reversed(item.items) if item is not root else ()
        elif item[0] == name:
            return item[1]
    return None


def mask_of(section: Section) -> Mask | None:
    """The mask of a block's section, in either of its two forms."""
    parameters = section.parameters()
    names = [it for it in parameters.get("MaskVariables", "").split(";") if it]
    texts = parameters.get("MaskValueString", "").split("|")
    pairs = [(name.partition("=")[0], text if "=@" in name else "") for name, text in zip(names, texts)]
    code = parameters.get("MaskInitialization", "")
    for mask in [it for it in section.sections("Object") if it.parameters().get("$ClassName") == "Simulink.Mask"]:
        code += mask.parameters().get("Initialization", "")
        for inside in mask_parameters(mask):
            is_computed = inside.get("Evaluate", "on") == "on"
            pairs.append((inside.get("Name", ""), inside.get("Value", "") if is_computed else ""))
    return Mask(tuple(pairs), bool(code.strip())) if pairs or code.strip() else None


def mask_parameters(mask: Section) -> list[dict[str, str]]:
    """The parameters of a mask's section: each says what it is, or the array that holds it does."""
    found: list[dict[str, str]] = []
    for section in mask.below():
        parameters = section.parameters()
        if parameters.get("$ClassName") == "Simulink.MaskParameter":
            found.append(parameters)
        elif section.name == "Array" and parameters.get("Type") == "Simulink.MaskParameter":
            untold = [it.parameters() for it in section.sections("Object")]
            found += [it for it in untold if "$ClassName" not in it]
    return found


class Builder:
    """Fills a model from its sections."""

    def __init__(self, model: Model, defaults: dict[str, dict[str, str]]) -> None:
        self.model, self.defaults = model, defaults
        self.blocks = 0
        self.by_number: list[tuple[str, int]] = []

    def build(self, root: Section) -> None:
        """The root system and all below it."""
        todo = [(self.model.root, root, path_part(self.model.name), 0)]
        self.model.root.name = root.parameters().get("Name", self.model.name)
        while todo:
            system, section, path, depth = todo.pop()
            if depth > MOST_DEEP:
                raise Refusal(f"line {section.line}", f"a subsystem inside {MOST_DEEP} others; draw its blocks in the one around it (F5)")
            for opened in section.sections("Block"):
                block = self.block(opened, path)
                system.blocks.append(block)
                inner = opened.first("System") if block.kind == "SubSystem" else None
                if inner is not None:
                    block.system = System(block.name)
                    todo.append((block.system, inner, f"{path}/{path_part(block.name)}", depth + 1))
            self.lines(system, section, path)
        if self.by_number:
            path, line = min(self.by_number, key=lambda it: it[1])
            many = f"ends of lines are named by `Src` and `Dst`, as in later releases: {len(self.by_number)} of them (F7)."
            instead = "mdlc-import writes SrcBlock and DstBlock."
            self.model.findings.append(Finding(Word.REWRITTEN, f"line {line}", path, "Line", many, instead))

    def block(self, section: Section, path: str) -> Block:
        """A block without what is inside it."""
        self.blocks += 1
        if self.blocks > MOST_BLOCKS:
            raise Refusal(f"line {section.line}", f"more than {MOST_BLOCKS} blocks; cut the model in two (F6)")
        own = section.parameters()
        kind = own.get("BlockType", "")
        block = Block(kind, own.get("Name", ""), f"line {section.line}", own, self.defaults.get(kind, {}), mask=mask_of(section))
        if "Name" not in own and "Name" not in block.defaults:
            self.model.says(Word.REFUSED, path, block, "it has no Name (F8).", "Give it one.")
        block.name = block.text("Name") or ""
        return block

    def lines(self, system: System, section: Section, path: str) -> None:
        """The lines of a system, whose blocks are known."""
        names = {it.name: it for it in reversed(system.blocks)}
        numbers = {it.own["SID"]: it for it in reversed(system.blocks) if "SID" in it.own}
        for line in section.sections("Line"):
            source = self.end(line, "Src", names, numbers, path)
            for branch in line.below("Branch"):
                end = self.end(branch, "Dst", names, numbers, path)
                if source and end:
                    connect(self.model, system, path, branch.line, source, end)

    def end(self, section: Section, side: str, names: dict[str, Block], numbers: dict[str, Block], path: str) -> Port | None:
        """The port that a section names on one side, or None where it names none, or none that there is."""
        parameters = section.parameters()
        if side in parameters:
            self.by_number.append((path, section.line))
            number, _, name = parameters[side].partition("#")
            block, called = numbers.get(number), f"SID {number}"
        elif side + "Block" in parameters:
            called, name = parameters[side + "Block"], parameters.get(side + "Port", "")
            block = names.get(called)
        else:
            return None
        if block is None:
            self.model.findings.append(missing(path, section.line, section.name, called))
            return None
        return Port(block, port_name(name))


def missing(path: str, line: int, kind: str, name: str) -> Finding:
    """The finding about a line that names no block."""
    says = f"no block {quoted(name)} is in this system (F10)."
    return Finding(Word.REFUSED, f"line {line}", path, kind, says, "Draw the line to a block that is there.")


def port_name(text: str) -> str:
    """The name of a port, of `1`, `out:1`, `in:1` or `enable`."""
    bare = text.removeprefix("out:").removeprefix("in:")
    number = whole(bare)
    return bare if number is None else str(number)


def connect(model: Model, system: System, path: str, line: int, source: Port, end: Port) -> None:
    """Draws a line, or says that its input has one already."""
    if end in system.sources:
        says = f"a second line to input {end.name} of {quoted(end.block.name)} (F12)"
        model.findings.append(Finding(Word.REFUSED, f"line {line}", path, "Line", says, "Take out one of them."))
    else:
        system.sources[end] = source
