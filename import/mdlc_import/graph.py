"""The ports of blocks, and which block gives the value on each input, across subsystems."""

from collections.abc import Mapping
from dataclasses import dataclass, field

from .catalogue import KNOWN
from .findings import Word
from .formats import whole
from .model import ENABLE, TRIGGER, Block, Model, Port, System

CONTROLS = {ENABLE: "EnablePort", TRIGGER: "TriggerPort"}
WITHOUT_OUTPUT = ("Outport", "Terminator", "EnablePort", "TriggerPort")
WITHOUT_INPUT = ("Inport", "Constant", "Ground", "EnablePort", "TriggerPort")
WITHOUT_VALUE = ("Ground", "Terminator", "SubSystem", "EnablePort", "TriggerPort")


def text_of(block: Block, name: str) -> str:
    """The text of a parameter as mdlc takes it: as written, else its default."""
    if name in block.written:
        return block.written[name]
    return next((it.default for it in KNOWN.get(block.kind, ()) if it.name == name), "")


def has_parameter(block: Block, name: str) -> bool:
    """Whether blocks of this type have the parameter."""
    return any(it.name == name for it in KNOWN.get(block.kind, ()))


def count_of_inputs(block: Block) -> int:
    """How many numbered inputs a block has."""
    if block.system is not None:
        return len(block.system.of_kind("Inport"))
    if block.kind in WITHOUT_INPUT or block.kind == "SubSystem":
        return 0
    if block.kind == "Logic" and text_of(block, "Operator") == "NOT":
        return 1
    if has_parameter(block, "Inputs"):
        text = text_of(block, "Inputs")
        count = whole(text)
        return count if count is not None else len(text.replace("|", ""))
    return {"Switch": 3, "RelationalOperator": 2}.get(block.kind, 1)


def inputs_of(block: Block) -> list[str]:
    """The names of a block's inputs, its controls last."""
    numbers = [str(it) for it in range(1, count_of_inputs(block) + 1)]
    return numbers + (controls_of(block.system) if block.system is not None else [])


def controls_of(system: System) -> list[str]:
    """The names of the controls that a system holds."""
    return [name for name, kind in CONTROLS.items() if system.of_kind(kind)]


def count_of_outputs(block: Block) -> int:
    """How many outputs a block has."""
    if block.system is not None:
        return len(block.system.of_kind("Outport"))
    return 0 if block.kind in WITHOUT_OUTPUT or block.kind == "SubSystem" else 1


@dataclass
class Row:
    """A block with the blocks on its inputs, by name. `around` are the subsystems around it, the outermost first."""

    block: Block
    path: str
    around: tuple[Block, ...]
    sources: dict[str, Block] = field(default_factory=dict)

    def inputs(self) -> list[Block]:
        """The blocks on the numbered inputs, in their order."""
        return [self.sources[it] for it in inputs_of(self.block) if it in self.sources]


def port_of(system: System, kind: str) -> dict[str, Block]:
    """The Inports or Outports of a system by the number of their port."""
    found: dict[str, Block] = {}
    for block in system.of_kind(kind):
        found.setdefault(str(whole(text_of(block, "Port"))), block)
    return found


def rows_of(model: Model) -> dict[Block, Row]:
    """All blocks with what is on their inputs, in the order of the file. A subsystem has its controls alone, and an Inport in it what
    enters its port. Says which inputs have no line, and which lines end at no port."""
    rows: dict[Block, Row] = {}
    for system, path, around in model.systems():
        for block in system.blocks:
            rows[block] = Row(block, path, around)
    for system, path, _ in model.systems():
        wire_system(model, system, path, rows)
    return preorder(model.root, rows)


def preorder(root: System, rows: Mapping[Block, Row]) -> dict[Block, Row]:
    """The rows in the order of the file: a subsystem, then what is in it, then the next beside it."""
    found: dict[Block, Row] = {}
    todo = list(reversed(root.blocks))
    while todo:
        block = todo.pop()
        found[block] = rows[block]
        if block.system is not None:
            todo += reversed(block.system.blocks)
    return found


def wire_system(model: Model, system: System, path: str, rows: dict[Block, Row]) -> None:
    """The lines of one system."""
    outports = {block: port_of(block.system, "Outport") for block in system.blocks if block.system is not None}
    inports = {block: port_of(block.system, "Inport") for block in system.blocks if block.system is not None}
    names = {block: set(inputs_of(block)) for block in system.blocks if block.kind in KNOWN and not block.broken & {"Inputs", "Operator"}}
    for end, source in system.sources.items():
        giver = giving(model, path, source, outports)
        if end.block in names and end.name not in names[end.block]:
            says = f"a line ends at its input {end.name}, which it doesn't have (F11)."
            model.says(Word.REFUSED, path, end.block, says, "Draw it to a port that is there.")
        elif giver is not None and end.block in inports and end.name in inports[end.block]:
            rows[inports[end.block][end.name]].sources["1"] = giver
        elif giver is not None:
            rows[end.block].sources[end.name] = giver
    for block, inputs in names.items():
        for name in sorted(inputs, key=lambda it: (len(it), it)):
            if Port(block, name) not in system.sources:
                control = "its control" if name in CONTROLS else "its input"
                says = f"{control} {name} has no line (F13)."
                model.says(Word.REFUSED, path, block, says, "Draw the line; where Simulink would take 0, put a Constant.")


def giving(model: Model, path: str, source: Port, outports: dict[Block, dict[str, Block]]) -> Block | None:
    """The block whose value an output is: of a subsystem the Outport in it."""
    block = source.block
    if block in outports:
        found = outports[block].get(source.name)
    else:
        is_there = block.kind not in KNOWN or source.name == "1" and count_of_outputs(block) == 1
        found = block if is_there else None
    if found is None:
        says = f"a line begins at its output {source.name}, which it doesn't have (F11)."
        model.says(Word.REFUSED, path, block, says, "Draw it from a port that is there.")
    return found
