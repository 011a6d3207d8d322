"""What only routes or shows: commented blocks, Goto and From, Mux and Demux, Scopes. In their place come lines, Grounds and Terminators."""

from .catalogue import LIBRARY, NOTES, SINKS
from .findings import Word, quoted
from .model import Block, Model, Port, System

PORTS = ("Inport", "Outport", "EnablePort", "TriggerPort")
# The outputs of blocks that vanish, with the outputs that stand for them, or None where there is none.
Passes = dict[Port, Port | None]


def settle_routing(model: Model) -> dict[Block, str]:
    """Rewrites all systems. Gives the blocks that can't be rewritten, with the reasons."""
    reasons: dict[Block, str] = {}
    for system, path, _ in model.systems():
        Router(model, system, path, reasons).settle()
    return reasons


class Router:
    """Rewrites one system."""

    def __init__(self, model: Model, system: System, path: str, reasons: dict[Block, str]) -> None:
        self.model, self.system, self.path, self.reasons = model, system, path, reasons
        self.gone: set[Block] = set()

    def settle(self) -> None:
        """All of it, in order: what is commented out comes first, and sinks when each line is known."""
        self.commented_out()
        self.references()
        passes = {**self.commented_through(), **self.tags()}
        ends = resolved(passes)
        self.without_source({it.block for it in ends if ends[it] is None})
        self.apply(ends)
        self.system.remove(self.gone)
        self.apply(resolved(self.vectors()))
        self.sinks()
        self.system.remove(self.gone)

    def rewritten(self, block: Block, says: str, instead: str) -> None:
        """Tells what was done to a block."""
        self.model.says(Word.REWRITTEN, self.path, block, says, instead)

    def apply(self, passes: Passes) -> None:
        """Draws the lines anew: those of outputs that vanish come from what stands for them."""
        drawn: dict[Port, Port] = {}
        for end, source in self.system.sources.items():
            found = passes.get(source, source)
            if found is not None:
                drawn[end] = found
        self.system.sources = drawn

    def without_source(self, blocks: set[Block]) -> None:
        """Blocks that vanish without anything to pass on, where something reads them."""
        read = {it.block for it in self.system.sources.values()}
        for block in [it for it in self.system.blocks if it in blocks and it in read]:
            says = "nothing gives its value: its input has no line, or the lines go round."
            self.model.says(Word.REFUSED, self.path, block, says, "Draw a line to it.")

    def references(self) -> None:
        """Links to blocks of Simulink's own library become blocks of their own, and notes vanish."""
        for block in [it for it in self.system.of_kind("Reference") if it.text("Commented") != "through"]:
            path = [" ".join(it.split()) for it in (block.text("SourceBlock") or "").split("/")]
            if path[0].startswith("simulink") and path[-1] in LIBRARY:
                self.rewritten(block, "mdlc has no links to libraries (F7).", "mdlc-import draws a subsystem that compares.")
                block.kind = LIBRARY[path[-1]]
                mode = block.own.get("OutDataTypeStr") or block.own.get("LogicOutDataTypeMode") or "boolean"
                block.own["OutDataTypeStr"] = mode
            elif path[0].startswith("simulink") and path[-1] in NOTES:
                self.rewritten(block, "mdlc has no links to libraries (F7).", "It is a note, so mdlc-import leaves it out.")
                self.gone.add(block)

    def commented_out(self) -> None:
        """A block that is commented out gives 0."""
        out = {it for it in self.system.blocks if it.text("Commented") == "on" and it.kind not in PORTS}
        used = {source.block for end, source in self.system.sources.items() if source.block in out and end.block not in out}
        for block in [it for it in self.system.blocks if it in out]:
            done = "mdlc-import writes a Ground." if block in used else "mdlc-import leaves it out."
            self.rewritten(block, '`Commented "on"`, which mdlc passes over, so it would compile it as live.', done)
            block.kind, block.own, block.defaults, block.system, block.mask = "Ground", kept(block), {}, None, None
        self.gone |= out - used
        sources = self.system.sources.items()
        self.system.sources = {end: Port(it.block, "1") if it.block in out else it for end, it in sources if end.block not in out}

    def commented_through(self) -> Passes:
        """A block that is commented through passes its inputs on."""
        passes: Passes = {}
        names = self.by_block()
        for block in self.system.blocks:
            commented = block.text("Commented")
            if block.kind in PORTS and commented in ("on", "through"):
                says = f'`Commented "{commented}"` at a port.'
                self.model.says(Word.REFUSED, self.path, block, says, "Delete the port, or uncomment it.")
            elif commented == "through":
                self.pass_through(block, names.get(block, set()), passes)
        return passes

    def pass_through(self, block: Block, inputs: set[str], passes: Passes) -> None:
        """One block that is commented through."""
        outputs = len(block.system.of_kind("Outport")) if block.system else 1
        names = {str(it + 1) for it in range(outputs)}
        if not inputs <= names:
            says = f'`Commented "through"`, with {len(inputs)} inputs and {outputs} outputs.'
            self.model.says(Word.REFUSED, self.path, block, says, "Only as many inputs as outputs can be passed through.")
            return
        says = '`Commented "through"`, which mdlc passes over, so it would compile it as live.'
        self.rewritten(block, says, "mdlc-import draws lines in its place.")
        passes.update({Port(block, it): self.system.sources.get(Port(block, it)) for it in names})
        self.gone.add(block)

    def tags(self) -> Passes:
        """Goto and From of one tag in this system are a line."""
        senders: dict[str, Block] = {}
        for block in self.system.of_kind("Goto"):
            tag = block.text("GotoTag") or "A"
            if tag in senders:
                self.reasons[block] = f"a second Goto with the tag {quoted(tag)} is in this system."
            senders.setdefault(tag, block)
        passes: Passes = {}
        for block in self.system.of_kind("From"):
            tag = block.text("GotoTag") or "A"
            if tag not in senders:
                self.reasons[block] = f"no Goto with the tag {quoted(tag)} is in this system, and lines don't leave a system."
                continue
            passes[Port(block, "1")] = self.system.sources.get(Port(senders[tag], "1"))
            self.rewritten(block, "mdlc has no block of this type (F7).", "mdlc-import draws a line from what enters its Goto.")
            self.gone.add(block)
        read = {it.text("GotoTag") or "A" for it in self.system.of_kind("From")}
        for tag, block in senders.items():
            if (block.text("TagVisibility") or "local") != "local" and tag not in read:
                self.reasons[block] = "its tag is seen in other systems, and lines don't leave a system."
                continue
            self.rewritten(block, "mdlc has no block of this type (F7).", "mdlc-import draws lines to what its From blocks feed.")
            self.gone.add(block)
        return passes

    def vectors(self) -> Passes:
        """A Mux of which only Demux blocks of the same width and sinks read is so many lines."""
        ends, names = self.system.ends(), self.by_block()
        passes: Passes = {}
        for mux in self.system.of_kind("Mux"):
            readers = [it.block for it in ends.get(Port(mux, "1"), [])]
            width = count_of(mux.text("Inputs") or "4")
            others = [it for it in readers if it.kind not in ("Demux", *SINKS, "Terminator")]
            uneven = [it for it in readers if it.kind == "Demux" and count_of(it.text("Outputs") or "4") != width]
            if width is None or others or uneven or mux not in names:
                self.reasons[mux] = self.why_not(width, others, uneven)
                continue
            for demux in [it for it in readers if it.kind == "Demux"]:
                for at in range(1, width + 1):
                    passes[Port(demux, str(at))] = self.system.sources.get(Port(mux, str(at)))
                self.rewritten(demux, "mdlc has no vectors (F7).", "mdlc-import draws lines from the inputs of its Mux.")
                self.gone.add(demux)
            is_split = any(it.kind == "Demux" for it in readers)
            done = "mdlc-import draws lines in its place." if is_split else "Only sinks read it, so mdlc-import leaves it out."
            self.rewritten(mux, "mdlc has no vectors (F7).", done)
            self.gone.add(mux)
        for demux in self.system.of_kind("Demux"):
            if demux not in self.gone:
                self.reasons.setdefault(demux, "what enters it isn't a Mux of as many scalars, and mdlc has no vectors (F7).")
        return passes

    def by_block(self) -> dict[Block, set[str]]:
        """The names of all inputs that have a line, by block."""
        found: dict[Block, set[str]] = {}
        for end in self.system.sources:
            found.setdefault(end.block, set()).add(end.name)
        return found

    @staticmethod
    def why_not(width: int | None, others: list[Block], uneven: list[Block]) -> str:
        """Why a Mux can't be so many lines."""
        if width is None:
            return "it joins vectors, and mdlc has none (F7)."
        if others:
            return f"{quoted(others[0].name)} ({others[0].kind}) reads it, and mdlc has no vectors (F7)."
        why = f"{quoted(uneven[0].name)} has another width" if uneven else "it isn't connected"
        return f"{why}, and mdlc has no vectors (F7)."

    def sinks(self) -> None:
        """Blocks that only show or log become Terminators, or vanish where no line enters them."""
        names = self.by_block()
        for block in self.system.blocks:
            if block.kind not in (*SINKS, "Terminator") or block in self.gone:
                continue
            lines = sorted(names.get(block, set()), key=lambda it: (len(it), it))
            scalars = [it for it in lines if self.system.sources[Port(block, it)].block not in self.gone]
            if not scalars:
                why = "no line enters it (F13)." if not lines else "only signals of a Mux enter it."
                self.rewritten(block, why, "mdlc-import leaves it out.")
                self.gone.add(block)
            elif block.kind != "Terminator":
                self.terminate(block, scalars)

    def terminate(self, block: Block, names: list[str]) -> None:
        """A sink becomes a Terminator, or a subsystem with one for each of its signals."""
        sources = [self.system.sources.pop(Port(block, it)) for it in names]
        for at, source in enumerate(sources, 1):
            self.system.sources[Port(block, str(at))] = source
        done = "mdlc-import writes a Terminator." if len(names) == 1 else "mdlc-import writes a subsystem of Terminators."
        self.rewritten(block, "mdlc has no block of this type (F7).", done)
        block.kind, block.own, block.defaults = "Terminator", kept(block), {}
        if len(names) > 1:
            block.kind, block.system = "SubSystem", terminators(block, len(names))


def kept(block: Block) -> dict[str, str]:
    """What a block keeps that becomes another one: its place in the drawing."""
    return {"Position": block.own["Position"]} if "Position" in block.own else {}


def terminators(block: Block, count: int) -> System:
    """A system of so many Inports, each with a Terminator."""
    system = System(block.name)
    for at in range(1, count + 1):
        inport = Block("Inport", f"In{at}", block.place, {"Port": str(at)})
        end = Block("Terminator", f"End{at}", block.place)
        system.blocks += [inport, end]
        system.sources[Port(end, "1")] = Port(inport, "1")
    return system


def count_of(text: str) -> int | None:
    """How many scalars a Mux or a Demux has: a number, or as many ones in brackets."""
    bare = text.strip(" \t")
    if bare.isdecimal() and len(bare) <= 4:
        return int(bare)
    ones = bare[1:-1].replace(",", " ").replace(";", " ").split() if bare[:1] == "[" and bare[-1:] == "]" else []
    return len(ones) if ones and all(it == "1" for it in ones) else None


def resolved(passes: Passes) -> Passes:
    """The same with each chain followed to its end; what goes round has none."""
    done: Passes = {}
    for first in passes:
        chain: list[Port] = []
        at: Port | None = first
        seen: set[Port] = set()
        while at is not None and at in passes and at not in done and at not in seen:
            seen.add(at)
            chain.append(at)
            at = passes[at]
        end = None if at in seen else done.get(at, at) if at is not None else None
        done.update({it: end for it in chain})
    return done
