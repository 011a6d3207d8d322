"""Which block, line or branch a line number of mdlc's refusals is about."""

import re

from .findings import Refusal, shown
from .mdl_text import Section, read_text
from .model import path_part

LINE = re.compile(r"\bline (\d{1,10})\b|\bLoop (\d{1,10})\b")


def place_of_line(data: bytes, answer: str) -> str:
    """What opens at the line that an answer of mdlc names, as text to be put behind it."""
    found = LINE.search(answer)
    if not found:
        return ""
    line = int(found[1] or found[2])
    try:
        tree = read_text(data.decode("latin-1"))
    except Refusal:
        return ""
    models = tree.sections("Model")
    root = models[0].first("System") if models else None
    todo = [(root, path_part(models[0].parameters().get("Name", "model")))] if root is not None else []
    while todo:
        system, path = todo.pop()
        for section in system.sections("Line"):
            if any(it.line == line for it in section.below("Branch")):
                parameters = section.parameters()
                return f": {path} (line from `{shown(parameters.get('SrcBlock', parameters.get('Src', '')))}`)"
        for block in system.sections("Block"):
            here = f"{path}/{path_part(block.parameters().get('Name', ''))}"
            if block.line == line:
                return f": {here} ({shown(block.parameters().get('BlockType', ''))})"
            todo += [(it, here) for it in inner(block)]
    return ""


def inner(block: Section) -> list[Section]:
    """The system in a block, if any."""
    found = block.first("System")
    return [found] if found is not None else []
