"""The lines of a script of calls, by the rules of docs/FORMATS.md; without the limit on their number."""

import re

MOST_BYTES = 4096
FIELD = re.compile(rb"[^ \t]+")
NUMBER = re.compile(rb"-?[0-9]{1,18}")


class Refused(Exception):
    """Holds why a line is refused."""


def lines_of(data):
    """The lines without their ends. A last one that lacks its end counts where it isn't empty, and keeps a byte 13."""
    *ended, last = data.split(b"\n")
    return [it.removesuffix(b"\r") for it in ended] + [last] * (last != b"")


def call_of(line):
    """The number of the output function that a line calls, or None for the update, and the values that it gives."""
    if len(line) > MOST_BYTES:
        raise Refused("Long")
    word, *numbers = FIELD.findall(line) or [b""]
    is_known = word == b"update" or word == b"out" and numbers
    if not is_known or not all(map(NUMBER.fullmatch, numbers)):
        raise Refused("Form")
    values = [int(it) for it in numbers]
    return (None, values) if word == b"update" else (values[0], values[1:])
