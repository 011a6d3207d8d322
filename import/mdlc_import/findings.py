"""What is said of a model: findings with the place they are about, and the refusals that end the reading of a file."""

from dataclasses import dataclass
from enum import Enum


class Word(Enum):
    """What becomes of what is found."""

    REFUSED = "refused"  # Neither mdlc nor mdlc-import takes it.
    REWRITTEN = "rewritten"  # mdlc refuses or misreads it, and mdlc-import writes something else.
    IGNORED = "ignored"  # mdlc passes over it, and so does mdlc-import.


@dataclass(frozen=True)
class Finding:
    """One sentence about one place of a model, and what to write instead."""

    word: Word
    place: str
    path: str
    kind: str
    says: str
    instead: str = ""

    def text(self) -> str:
        """The line that is printed."""
        of_kind = f" ({self.kind})" if self.kind else ""
        behind = f" {self.instead}" if self.instead else ""
        return f"{self.word.value} {self.place}: {self.path}{of_kind}: {self.says}{behind}"


class Refusal(Exception):
    """The whole file can't be read."""

    def __init__(self, place: str, says: str) -> None:
        super().__init__(f"{place}: {says}")
        self.place, self.says = place, says


def shown(text: str) -> str:
    """A name or a value in one printed line: control characters as blanks, and long texts cut."""
    line = "".join(" " if ord(it) < 32 or ord(it) == 127 else it for it in text)
    return line if len(line) <= 100 else line[:97] + "..."


def quoted(text: str) -> str:
    """A text as a message cites it."""
    return f"`{shown(text)}`"
