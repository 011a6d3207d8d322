"""Models and forms of models, each with what is to be said of it and written: the files in `data/cases`.

A case names a model of `data/models` and the lines that are others in it, or what the whole file is. Then come its findings, each with a
phrase that its sentence has, and whether it is refused, or the lines of the plain text that aren't those of the model's own."""

import re
from collections import Counter
from collections.abc import Callable
from dataclasses import dataclass, field
from pathlib import Path

from .judging import DATA

WHOLE: dict[str, Callable[[str], str]] = {
    "carriage returns": lambda text: text.replace("\n", "\r\n"),
    "twice": lambda text: text + text,
    "blanks for tabs": lambda text: text.replace("\t", 8 * " "),
    "nothing": lambda text: "",
    "byte-order mark": lambda text: "\xef\xbb\xbf" + text,
    "no last end": lambda text: text.removesuffix("\n"),
    '<?xml version="1.0"?>': lambda text: '<?xml version="1.0"?>\n',
    r"PK\x03\x04\x14\x00": lambda text: "PK\x03\x04\x14\x00",
}
HEAD = re.compile(r"(\w+ [^:]+: [^`]+?(?: \([^)]*\))?): (.*)")


@dataclass
class Case:
    """A case as its file has it."""

    name: str
    model: str
    text: str
    findings: list[tuple[str, str]]
    is_taken: bool
    lines: Counter[str] = field(default_factory=Counter)


def sections_of(text: str) -> list[tuple[str, list[str]]]:
    """The sections of a case: what is behind `==`, and the lines."""
    found: list[tuple[str, list[str]]] = []
    for line in text.removesuffix("\n").split("\n"):
        if line.startswith("== "):
            found.append((line.removeprefix("== "), []))
        else:
            found[-1][1].append(line)
    return found


def read_case(path: Path) -> Case:
    """A case of a file."""
    sections = sections_of(path.read_bytes().decode("latin-1"))
    model = sections[0][0].removeprefix("model ")
    base = (DATA / "models" / f"{model}.mdl").read_bytes().decode("latin-1")
    case = Case(path.stem, model, base, [], False)
    lines = base.split("\n")
    for heading, inside in reversed(sections[1:]):
        word, _, rest = heading.partition(" ")
        if word == "whole":
            case.text = WHOLE[rest](base)
        elif word == "lines":
            first, last = (int(it) for it in rest.split(" to "))
            lines[first - 1: last] = inside
            case.text = "\n".join(lines)
        elif word == "findings":
            case.findings = [(found[1], found[2]) for it in inside if (found := HEAD.fullmatch(it))]
            assert len(case.findings) == len(inside), (path, inside)
        else:
            case.is_taken = word == "taken"
            case.lines = Counter(inside)
    return case


def all_cases() -> list[Case]:
    """All cases, by their names."""
    return [read_case(it) for it in sorted((DATA / "cases").glob("*.case"))]


def differing(base: str, text: str) -> Counter[str]:
    """The lines of one text that the other doesn't have, with `-` and `+` before them."""
    one, other = (Counter(line.strip() for line in it.split("\n")) for it in (base, text))
    gone = Counter({f"- {line}": count for line, count in (one - other).items()})
    return gone + Counter({f"+ {line}": count for line, count in (other - one).items()})
