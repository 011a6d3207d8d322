"""The plain text of a model, in one form: the same model gives the same bytes, whatever file it came from."""

import re
from collections.abc import Iterable, Iterator

from .catalogue import NATIVE, Form, Parameter
from .formats import whole
from .graph import inputs_of
from .mdl_text import escaped_string
from .model import Block, Model, Port, System

HEADING = "# Written by mdlc-import: plain MDL for mdlc."
POSITION = re.compile(r"\[[ \t]*-?\d{1,6}(?:[ \t]*[, \t][ \t]*-?\d{1,6}){3}[ \t]*\]")


def model_text(model: Model) -> str:
    """The whole text."""
    lines = [HEADING, "Model {", f"  Name {escaped_string(model.name)}"]
    if model.step is not None:
        lines.append(f"  FixedStep {escaped_string(model.step)}")
    lines += system_lines(model.root, model.root.name, "  ")
    return "\n".join([*lines, "}", ""])


def system_lines(system: System, name: str, indent: str) -> Iterator[str]:
    """A system: its blocks in their order, and then its lines."""
    yield f"{indent}System {{"
    yield f"{indent}  Name {escaped_string(name)}"
    for block in system.blocks:
        yield from block_lines(block, indent + "  ")
    yield from line_lines(system, indent + "  ")
    yield f"{indent}}}"


def block_lines(block: Block, indent: str) -> Iterator[str]:
    """A block with the parameters that aren't at mdlc's defaults."""
    yield f"{indent}Block {{"
    yield f"{indent}  BlockType {block.kind}"
    yield f"{indent}  Name {escaped_string(block.name)}"
    position = block.own.get("Position", "")
    if POSITION.fullmatch(position):
        yield f"{indent}  Position {numbers_in_brackets(position)}"
    for parameter in NATIVE[block.kind]:
        text = block.written.get(parameter.name)
        if text is not None and not is_default(text, parameter):
            yield f"{indent}  {parameter.name} {escaped_string(text)}"
    if block.system is not None:
        yield from system_lines(block.system, block.name, indent + "  ")
    yield f"{indent}}}"


def is_default(text: str, parameter: Parameter) -> bool:
    """Whether a text is the one that mdlc takes where there is none."""
    return text == parameter.default or parameter.form is Form.WHOLE and whole(text) == whole(parameter.default)


def numbers_in_brackets(text: str) -> str:
    """Four numbers in one form."""
    return f"[{', '.join(re.findall(r'-?[0-9]+', text))}]"


def line_lines(system: System, indent: str) -> Iterator[str]:
    """The lines, by the blocks from which they come, each with its ends by the blocks to which they go."""
    order = {block: at for at, block in enumerate(system.blocks)}
    for source, ends in sorted(system.ends().items(), key=lambda it: (order[it[0].block], port_order(it[0]))):
        yield f"{indent}Line {{"
        yield f"{indent}  SrcBlock {escaped_string(source.block.name)}"
        yield f"{indent}  SrcPort {source.name}"
        ordered = sorted(ends, key=lambda it: (order[it.block], port_order(it)))
        if len(ordered) == 1:
            yield from end_lines(ordered, indent + "  ")
        else:
            for end in ordered:
                yield f"{indent}  Branch {{"
                yield from end_lines([end], indent + "    ")
                yield f"{indent}  }}"
        yield f"{indent}}}"


def end_lines(ends: Iterable[Port], indent: str) -> Iterator[str]:
    """Where a line goes."""
    for end in ends:
        yield f"{indent}DstBlock {escaped_string(end.block.name)}"
        yield f"{indent}DstPort {end.name}"


def port_order(port: Port) -> int:
    """The place of a port among those of its block."""
    if port.name.isdecimal():
        return int(port.name)
    return 1000 + (inputs_of(port.block).index(port.name) if port.name in inputs_of(port.block) else 0)
