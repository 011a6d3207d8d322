"""The command line."""

import os
import shutil
import stat
import subprocess
import sys
import tempfile
from collections.abc import Sequence
from dataclasses import dataclass
from pathlib import Path

from .findings import Refusal, Word
from .importing import Outcome, imported
from .places import place_of_line
from .values import NoValue, Scope, Value
from .values_file import read_values
from .xml_tree import MissingLibrary

USAGE = """usage: mdlc-import IN -o OUT.mdl [--values FILE]..
       mdlc-import --explain IN [--values FILE].. [--mdlc PATH]
"""
DONE, WORDS, REFUSED, READ, WRITE, PUT = 0, 2, 3, 5, 6, 7
MOST_BYTES = 64 * 1024 * 1024
PATIENCE = 60


@dataclass(frozen=True)
class Call:
    """The words of a call."""

    model: str
    out: str | None
    values: tuple[str, ...]
    mdlc: str | None


class Ends(Exception):
    """The call ends with a status and a text."""

    def __init__(self, status: int, text: str) -> None:
        super().__init__(text)
        self.status, self.text = status, text


def call_of(words: Sequence[str]) -> Call:
    """The call that the words are; raises Ends."""
    explains, names, values = False, list[str](), list[str]()
    options: dict[str, str] = {}
    rest = list(words)
    while rest:
        word = rest.pop(0)
        if word in ("-o", "--values", "--mdlc"):
            if not rest or word in options:
                raise Ends(WORDS, USAGE)
            if word == "--values":
                values.append(rest.pop(0))
            else:
                options[word] = rest.pop(0)
        elif word == "--explain" and not explains:
            explains = True
        elif word.startswith("-") or not word:
            raise Ends(WORDS, USAGE)
        else:
            names.append(word)
    if len(names) != 1 or explains == ("-o" in options) or "--mdlc" in options and not explains or "" in (*options.values(), *values):
        raise Ends(WORDS, USAGE)
    return Call(names[0], options.get("-o"), tuple(values), options.get("--mdlc"))


def bytes_of(path: str) -> bytes:
    """The bytes of a file, within bounds; raises Ends."""
    try:
        with open(path, "rb") as file:
            data = file.read(MOST_BYTES + 1)
    except OSError as fault:
        raise Ends(READ, f"can't read {bytewise(path)}: {fault.strerror}\n") from None
    except ValueError:
        raise Ends(READ, f"can't read {bytewise(path)}\n") from None
    if len(data) > MOST_BYTES:
        raise Ends(REFUSED, f"refused file: {bytewise(path)}: more than {MOST_BYTES} bytes.\n")
    return data


def scope_of(files: Sequence[str]) -> Scope:
    """The names of all values files, in their order; raises Ends."""
    names: dict[str, Value | NoValue] = {}
    for file in files:
        try:
            read_values(bytewise(file), bytes_of(file).decode("latin-1"), names)
        except Refusal as fault:
            raise Ends(REFUSED, f"refused {fault.place}: {fault.says}.\n") from None
    return Scope(names)


def written(path: str, text: str) -> None:
    """Writes a text to a file beside the one that is meant, and then renames it; raises Ends."""
    target = Path(path)
    try:
        mode = stat.S_IMODE(target.stat().st_mode) if target.exists() else 0o666 & ~mask_of_process()
        if target.exists() and not target.is_file():
            raise Ends(WRITE, f"can't write {bytewise(path)}: no plain file\n")
        handle, name = tempfile.mkstemp(prefix=f".{target.name[:50]}.", dir=target.resolve().parent)
    except (OSError, ValueError) as fault:
        raise Ends(WRITE, f"can't write {bytewise(path)}: {getattr(fault, 'strerror', fault)}\n") from None
    try:
        with os.fdopen(handle, "wb") as file:
            file.write(text.encode("latin-1"))
            file.flush()
            os.fsync(file.fileno())
        os.chmod(name, mode)
        os.replace(name, target.resolve())
    except OSError as fault:
        os.unlink(name)
        raise Ends(WRITE, f"can't write {bytewise(path)}: {fault.strerror}\n") from None


def mask_of_process() -> int:
    """The bits that new files of this process don't have."""
    mask = os.umask(0)
    os.umask(mask)
    return mask


def is_same_file(one: str, other: str) -> bool:
    """Whether two words name one file."""
    try:
        return os.path.samefile(one, other)
    except (OSError, ValueError):
        return False


def run_import(call: Call, out: str) -> tuple[int, str]:
    """`mdlc-import IN -o OUT`: the status, and what is printed."""
    if any(is_same_file(it, out) for it in (call.model, *call.values)):
        raise Ends(WORDS, f"{bytewise(out)} is what is read\n" + USAGE)
    outcome = imported(bytewise(call.model), bytes_of(call.model), scope_of(call.values))
    lines = lines_of(outcome)
    if outcome.text is None:
        return REFUSED, f"{lines}nothing is written: {count(outcome, Word.REFUSED)} refused\n"
    written(out, outcome.text)
    return DONE, f"{lines}written {bytewise(out)}: {count(outcome, Word.REWRITTEN)} rewritten, {count(outcome, Word.IGNORED)} ignored\n"


def lines_of(outcome: Outcome) -> str:
    """All findings, a line each."""
    return "".join(f"{it.text()}\n" for it in outcome.findings)


def count(outcome: Outcome, word: Word) -> int:
    """How many findings have this word."""
    return sum(it.word is word for it in outcome.findings)


def run_explain(call: Call) -> tuple[int, str]:
    """`mdlc-import --explain IN`: the status, and what is printed."""
    data = bytes_of(call.model)
    outcome = imported(bytewise(call.model), data, scope_of(call.values))
    asked = answers_of_mdlc(call, data, outcome)
    counts = ", ".join(f"{count(outcome, it)} {it.value}" for it in Word)
    is_clean = not outcome.findings and not any(it.startswith("mdlc: refused") for it in asked)
    return (DONE if is_clean else REFUSED), lines_of(outcome) + "".join(f"{it}\n" for it in asked) + f"found: {counts}\n"


def answers_of_mdlc(call: Call, data: bytes, outcome: Outcome) -> list[str]:
    """What the built mdlc says of the file, with the block at that line, and of what would be written."""
    program = program_of(call)
    if program is None:
        return ["mdlc: not here, so it wasn't asked"]
    answer = asked_of(program, call.model)
    lines = [f"mdlc: {answer}{place_of_line(data, answer)}"]
    if outcome.text is not None and (outcome.findings or answer != "accepted"):
        with tempfile.TemporaryDirectory() as folder:
            path = os.path.join(folder, "model.mdl")
            Path(path).write_bytes(outcome.text.encode("latin-1"))
            lines.append(f"mdlc of what mdlc-import writes: {asked_of(program, path)}")
    return lines


def program_of(call: Call) -> str | None:
    """The built mdlc: the one that is named, the one beside this program, or the one on PATH; raises Ends."""
    if call.mdlc is not None:
        if not os.access(call.mdlc, os.X_OK):
            raise Ends(READ, f"can't run {bytewise(call.mdlc)}\n")
        return call.mdlc
    beside = Path(__file__).resolve().parents[2] / "crates" / "mdlc" / "out" / "mdlc"
    return str(beside) if os.access(beside, os.X_OK) else shutil.which("mdlc")


def asked_of(program: str, path: str) -> str:
    """What mdlc says of a file: `accepted`, or its refusal."""
    word = os.path.join(os.curdir, path) if path.startswith("-") else path
    try:
        done = subprocess.run([program, "profile", word], capture_output=True, timeout=PATIENCE, check=False)
    except (OSError, subprocess.TimeoutExpired, ValueError) as fault:
        return f"no answer ({type(fault).__name__})"
    last = done.stdout.decode("latin-1").rstrip("\n").rpartition("\n")[2]
    return "accepted" if done.returncode == 0 else last or f"no answer (status {done.returncode})"


def run(words: Sequence[str]) -> tuple[int, str]:
    """The whole call: the status, and what is printed, one character for each byte."""
    try:
        call = call_of(words)
        return run_import(call, call.out) if call.out is not None else run_explain(call)
    except Ends as end:
        return end.status, end.text
    except MissingLibrary as fault:
        return READ, f"{fault}\n"


def bytewise(text: str) -> str:
    """A text of the command line as one character for each byte."""
    return os.fsencode(text).decode("latin-1")


def main() -> int:
    """The program."""
    status, text = run(sys.argv[1:])
    try:
        sys.stdout.buffer.write(text.encode("latin-1", "replace"))
        sys.stdout.buffer.flush()
    except OSError:
        os.dup2(os.open(os.devnull, os.O_WRONLY), sys.stdout.fileno())
        return PUT
    return status
