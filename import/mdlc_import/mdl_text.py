"""The text form of models: sections, parameters and strings, with their lines, by the rules of docs/FORMATS.md."""

import re
from collections.abc import Iterator
from dataclasses import dataclass, field

from .findings import Refusal

NAME = re.compile(r"[A-Za-z_.$][A-Za-z0-9_.$]*")
BLANKS = " \t"
MOST_BYTES = 16 * 1024 * 1024
MOST_OPEN = 128
MOST_LINES = 2_000_000
ESCAPED = {'"': '"', "\\": "\\", "n": "\n", "t": "\t"}
STRING = re.compile(r'"((?:[^"\\]++|\\["\\nt]|\\(?!["\\nt]))*+)"')
ESCAPE = re.compile(r'\\(["\\nt])')


@dataclass
class Section:
    """A named section. Items stand in the order of the text: sections, and parameters as pairs of a name and a value."""

    name: str
    line: int
    items: "list[Section | tuple[str, str]]" = field(default_factory=list)

    def sections(self, name: str) -> "list[Section]":
        """The sections directly in it that have this name."""
        return [it for it in self.items if isinstance(it, Section) and it.name == name]

    def first(self, name: str) -> "Section | None":
        """The first section directly in it that has this name."""
        return next(iter(self.sections(name)), None)

    def parameters(self) -> dict[str, str]:
        """The parameters; of several of one name the first counts."""
        found: dict[str, str] = {}
        for item in self.items:
            if isinstance(item, tuple):
                found.setdefault(item[0], item[1])
        return found

    def below(self, name: str = "") -> "Iterator[Section]":
        """The section and all inside it, in the order of the text; of these, where a name is given, those that have it."""
        todo: list[Section] = [self]
        while todo:
            section = todo.pop()
            yield section
            todo += [it for it in reversed(section.items) if isinstance(it, Section) and name in ("", it.name)]


def unescaped(text: str) -> tuple[str, str] | None:
    """The string with which a text begins and what is behind it, or None where it doesn't end."""
    found = STRING.match(text)
    return (ESCAPE.sub(lambda it: ESCAPED[it[1]], found[1]), text[found.end():]) if found else None


def escaped_string(text: str) -> str:
    """A text as a quoted string of a model's text."""
    for plain, written in (("\\", "\\\\"), ('"', '\\"'), ("\n", "\\n"), ("\t", "\\t")):
        text = text.replace(plain, written)
    return f'"{text}"'


def lines_of(text: str) -> list[str]:
    """The lines without their ends and the blanks around them."""
    return [it.removesuffix("\r").strip(BLANKS) for it in text.split("\n")]


@dataclass
class Reader:
    """Reads lines one by one and keeps the sections that are open."""

    lines: list[str]
    at: int = 0
    open: list[Section] = field(default_factory=lambda: [Section("", 0)])
    pieces: list[str] = field(default_factory=list)
    continues: bool = False

    def fault(self, line: int, says: str) -> Refusal:
        """The refusal at a line."""
        return Refusal(f"line {line}", f"{says} (F2)")

    def string(self, line: int, text: str) -> str:
        """The value of a text that is one string."""
        found = unescaped(text)
        if found is None:
            raise self.fault(line, "a string without its end; each string ends on its own line")
        if found[1].strip(BLANKS):
            raise self.fault(line, "text behind the end of a string")
        return found[0]

    def bracketed(self, line: int, text: str) -> str:
        """A value in brackets, that may go over several lines."""
        parts = [text]
        while "]" not in parts[-1]:
            if self.at == len(self.lines):
                raise self.fault(line, "a `[` without its `]`")
            parts.append(self.lines[self.at])
            self.at += 1
        return " ".join(parts)

    def named(self, line: int, text: str) -> None:
        """A section that opens, or a parameter."""
        found = NAME.match(text)
        if not found:
            raise self.fault(line, "this is no line of a model's text: a name, a string or a `}` must stand here")
        rest = text[found.end():]
        value = rest.lstrip(BLANKS)
        self.end_string()
        if value == "{":
            self.open_section(Section(found.group(), line))
            return
        if rest and value == rest:
            raise self.fault(line, f"behind the name `{found.group()}` comes a blank")
        if value.startswith('"'):
            value, self.continues = self.string(line, value), True
        elif value.startswith("["):
            value = self.bracketed(line, value)
        self.open[-1].items.append((found.group(), value))

    def open_section(self, section: Section) -> None:
        """A section inside the innermost one."""
        if len(self.open) > MOST_OPEN:
            raise self.fault(section.line, f"more than {MOST_OPEN} sections in one another")
        self.open[-1].items.append(section)
        self.open.append(section)

    def more(self, line: int, text: str) -> None:
        """A string alone, that goes on with the value of the parameter before it."""
        value = self.string(line, text)
        if not self.continues:
            raise self.fault(line, "a string alone, with no string before it to go on with")
        self.pieces.append(value)

    def end_string(self) -> None:
        """Nothing more comes of the string before: its pieces are joined."""
        if self.pieces:
            name, value = self.open[-1].items.pop()  # type: ignore[misc]
            self.open[-1].items.append((name, "".join([value, *self.pieces])))
            self.pieces.clear()
        self.continues = False

    def read(self) -> Section:
        """The section that holds the whole text."""
        while self.at < len(self.lines):
            text = self.lines[self.at]
            self.at += 1
            if text.startswith('"'):
                self.more(self.at, text)
            elif text == "}":
                self.end_string()
                self.close()
            elif text and not text.startswith("#"):
                self.named(self.at, text)
        self.end_string()
        if len(self.open) > 1:
            opened = self.open[-1]
            raise self.fault(len(self.lines), f"the text ends inside `{opened.name}`, opened in line {opened.line}")
        return self.open[0]

    def close(self) -> None:
        """The end of the innermost section."""
        if len(self.open) == 1:
            raise self.fault(self.at, "a `}` with no section open")
        self.open.pop()


def read_text(text: str) -> Section:
    """The sections of a model's text; raises a Refusal at its first fault."""
    if text.count("\n") > MOST_LINES:
        raise Refusal("file", f"more than {MOST_LINES} lines")
    return Reader(lines_of(text)).read()
