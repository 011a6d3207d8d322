"""Files of `NAME = EXPRESSION` lines, which may be MATLAB files of plain assignments."""

import re

from .findings import Refusal, shown
from .values import NoValue, Scope, Value, evaluate

ASSIGNMENT = re.compile(r"([A-Za-z]\w*(?:\.[A-Za-z]\w*)*)[ \t]*=(?!=)[ \t]*(.*)", re.A | re.S)
IDLE = re.compile(r"(clc|close all|close|format|format \w+|hold on|hold off|more off|warning off)", re.A)
CLEARING = re.compile(r"(clear|clear all|clearvars)", re.A)
MOST_BYTES = 1024 * 1024


def without_comment(line: str) -> str:
    """A line up to its `%` or `#`, where these are in no string."""
    is_text = False
    for at, letter in enumerate(line):
        if letter == "'" and (is_text or not re.search(r"[\w)\]'.]$", line[:at], re.A)):
            is_text = not is_text
        elif letter in "%#" and not is_text:
            return line[:at]
    return line


def statements_of(text: str) -> list[tuple[int, str]]:
    """The statements with their lines: parted by lines' ends, semicolons and commas outside brackets; `...` joins lines."""
    found: list[tuple[int, str]] = []
    pending, start, depth = "", 0, 0
    for at, raw in enumerate(text.replace("\r\n", "\n").split("\n"), 1):
        line = without_comment(raw).strip()
        start = start if pending.strip() else at
        joins = line.endswith("...")
        for letter in line.removesuffix("..."):
            depth = max(0, depth + {"(": 1, "[": 1, "{": 1, ")": -1, "]": -1, "}": -1}.get(letter, 0))
            if letter in ";," and depth == 0:
                found.append((start, pending.strip()))
                pending, start = "", at
            else:
                pending += letter
        if not joins and depth == 0:
            found.append((start, pending.strip()))
            pending = ""
    return [it for it in [*found, (start, pending.strip())] if it[1]]


def read_values(name: str, text: str, names: dict[str, Value | NoValue]) -> None:
    """Adds the names of a file to those known; raises a Refusal at a line that is no assignment. What can't be computed is kept with
    its reason, and told where it is used."""
    if len(text) > MOST_BYTES:
        raise Refusal(name, f"more than {MOST_BYTES} bytes")
    for line, statement in statements_of(text.removeprefix("\xef\xbb\xbf")):
        found = ASSIGNMENT.fullmatch(statement)
        if found:
            names[found[1]] = value_of(name, line, found[2], names)
        elif CLEARING.fullmatch(statement):
            names.clear()
        elif not IDLE.fullmatch(statement):
            raise Refusal(f"{name} line {line}", f"`{shown(statement)}` is no line `NAME = EXPRESSION`")


def value_of(name: str, line: int, text: str, names: dict[str, Value | NoValue]) -> Value | NoValue:
    """The value of an assignment, or the reason why it has none."""
    try:
        return evaluate(text, Scope(names))
    except NoValue as fault:
        return NoValue(f"{shown(name)} line {line}: {fault}")
