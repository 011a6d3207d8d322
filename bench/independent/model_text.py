"""The sections and parameters of a model's text, read line by line by the rules of docs/FORMATS.md."""

import re

NAME = re.compile(rb"[A-Za-z_.$][A-Za-z0-9_.$]*")
BLANKS = b" \t"
ESCAPES = {b'"': b'"', b"\\": b"\\", b"n": b"\n", b"t": b"\t"}
MOST_OPEN = 128


class Refused(Exception):
    """Holds the text of a refusal, behind the word `refused`."""


class Section:
    """A section with its parameters and sections, in order."""

    def __init__(self, name, line):
        self.name, self.line = name, line
        self.sections, self.params = [], []
        # Both, in the order of the text: sections, and parameters as a name and a value.
        self.items = []

    def all(self, name):
        """The sections of this name directly in it."""
        return [it for it in self.sections if it.name == name]

    def param(self, name):
        """The value of the first parameter of that name, or None."""
        return next((bytes(value) for key, value in self.params if key == name), None)


def unquoted(text):
    """The string with which the text begins and what stands behind it, or None where it doesn't end."""
    value, at = bytearray(), 1
    while at < len(text):
        if text[at : at + 1] == b'"':
            return value, text[at + 1 :]
        escaped = ESCAPES.get(text[at + 1 : at + 2]) if text[at : at + 1] == b"\\" else None
        value += escaped or text[at : at + 1]
        at += 2 if escaped else 1
    return None


def lines_of(data):
    """The lines of a text without their ends and outer blanks."""
    lines = data.split(b"\n")
    ended = [it[:-1] if it.endswith(b"\r") else it for it in lines[:-1]]
    return [it.strip(BLANKS) for it in [*ended, *([lines[-1]] if lines[-1] else [])]]


class Reader:
    """Reads a text line by line."""

    def __init__(self, data):
        self.lines = lines_of(data)
        self.at = 0
        self.open = [Section(b"", 0)]
        # The value that a string alone goes on with.
        self.quoted = None

    def fault(self, line, kind):
        """Refuses the text at a line."""
        raise Refused(f"F2 Syntax line {line} {kind}")

    def string(self, line, text):
        """The value of a quoted text."""
        found = unquoted(text)
        if found is None:
            self.fault(line, "OpenString")
        value, behind = found
        if behind.strip(BLANKS):
            self.fault(line, "AfterString")
        return value

    def bracketed(self, line, text):
        """The value of a text in brackets, which may go on over lines."""
        parts = [text]
        while b"]" not in parts[-1]:
            if self.at == len(self.lines):
                self.fault(line, "OpenBracket")
            parts.append(self.lines[self.at])
            self.at += 1
        return b" ".join(parts)

    def named(self, line, text):
        """A line that begins with a name."""
        found = NAME.match(text)
        if not found:
            self.fault(line, "BadName")
        name, rest = found.group(), text[found.end() :]
        value = rest.lstrip(BLANKS)
        self.quoted = None
        if value == b"{":
            if len(self.open) > MOST_OPEN:
                self.fault(line, "DeepSections")
            section = Section(name, line)
            self.open[-1].sections.append(section)
            self.open[-1].items.append(section)
            self.open.append(section)
            return
        if rest and value == rest:
            self.fault(line, "BadName")
        if value.startswith(b'"'):
            value = self.quoted = self.string(line, value)
        elif value.startswith(b"["):
            value = self.bracketed(line, value)
        self.open[-1].params.append((name, value))
        self.open[-1].items.append((name, value))

    def line(self, line, text):
        """One line."""
        if text.startswith(b'"'):
            value = self.string(line, text)
            if self.quoted is None:
                self.fault(line, "StrayString")
            self.quoted += value
        elif text == b"}":
            if len(self.open) == 1:
                self.fault(line, "Brace")
            self.open.pop()
            self.quoted = None
        else:
            self.named(line, text)

    def read(self):
        """The whole text."""
        while self.at < len(self.lines):
            text = self.lines[self.at]
            self.at += 1
            if text and not text.startswith(b"#"):
                self.line(self.at, text)
        if len(self.open) > 1:
            self.fault(len(self.lines), "Brace")
        return self.open[0]


def read(data):
    """The tree of the text; raises its fault."""
    return Reader(data).read()
