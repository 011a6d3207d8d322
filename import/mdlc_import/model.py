"""A model as a tree of systems with blocks, and the lines between their ports."""

from collections.abc import Iterator, Mapping
from dataclasses import dataclass, field

from .findings import Finding, Word, shown

ENABLE, TRIGGER = "enable", "trigger"


@dataclass(frozen=True)
class Mask:
    """The variables of a masked subsystem, as names and expressions, and whether code computes others."""

    variables: tuple[tuple[str, str], ...]
    has_code: bool


@dataclass(eq=False)
class Block:
    """A block. `own` are the parameters that it writes, `written` those that go into the plain model, and `broken` those
    that aren't taken, so that nothing more is said of what follows from them. `rounds_as_it_likes` says that its rounding
    is left to Simulink."""

    kind: str
    name: str
    place: str
    own: dict[str, str] = field(default_factory=dict)
    defaults: Mapping[str, str] = field(default_factory=dict)
    system: "System | None" = None
    mask: Mask | None = None
    written: dict[str, str] = field(default_factory=dict)
    broken: set[str] = field(default_factory=set)
    rounds_as_it_likes: bool = False

    def text(self, name: str) -> str | None:
        """The text of a parameter in the file: its own, else that of the defaults."""
        return self.own.get(name, self.defaults.get(name))


@dataclass(frozen=True)
class Port:
    """An output or an input of a block: a number from 1, `enable`, `trigger`, or what else the file names."""

    block: Block
    name: str


@dataclass(eq=False)
class System:
    """Blocks in the order of the file. `sources` has the output that each input takes."""

    name: str
    blocks: list[Block] = field(default_factory=list)
    sources: dict[Port, Port] = field(default_factory=dict)

    def of_kind(self, kind: str) -> list[Block]:
        """The blocks directly in it of a BlockType."""
        return [it for it in self.blocks if it.kind == kind]

    def ends(self) -> dict[Port, list[Port]]:
        """The inputs that each output feeds."""
        found: dict[Port, list[Port]] = {}
        for end, source in self.sources.items():
            found.setdefault(source, []).append(end)
        return found

    def inputs(self, block: Block) -> dict[str, Port]:
        """The outputs on a block's inputs, by the names of these."""
        return {end.name: source for end, source in self.sources.items() if end.block is block}

    def remove(self, gone: set[Block]) -> None:
        """Takes blocks out, with the lines at them."""
        self.blocks = [it for it in self.blocks if it not in gone]
        self.sources = {end: it for end, it in self.sources.items() if end.block not in gone and it.block not in gone}


@dataclass(eq=False)
class Model:
    """A model with its root system. `step` is the text of FixedStep where the file has one; logical types are boolean or `double`."""

    name: str
    root: System
    step: str | None = None
    findings: list[Finding] = field(default_factory=list)
    has_booleans: bool = True

    def systems(self) -> Iterator[tuple[System, str, tuple[Block, ...]]]:
        """All systems, each before those in it, with its path and the subsystems around it, the outermost first."""
        todo: list[tuple[System, str, tuple[Block, ...]]] = [(self.root, path_part(self.name), ())]
        while todo:
            system, path, around = todo.pop()
            yield system, path, around
            for block in reversed(system.blocks):
                if block.system is not None:
                    todo.append((block.system, f"{path}/{path_part(block.name)}", (*around, block)))

    def says(self, word: Word, path: str, block: Block, says: str, instead: str = "") -> None:
        """Adds a finding about a block in the system at a path."""
        where = f"{path}/{path_part(block.name)}"
        self.findings.append(Finding(word, block.place, where, shown(block.kind), says, instead))

    def is_refused(self) -> bool:
        """Whether something was found that can't be taken."""
        return any(it.word is Word.REFUSED for it in self.findings)


def path_part(name: str) -> str:
    """A name as a part of a path: a line's end as a blank, and a slash doubled."""
    return shown(name).replace("/", "//")
