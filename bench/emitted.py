"""The C that the tables of docs/INTEGRATION.md speak of: files that are C, and models, which the built program compiles."""

import os
import subprocess
import sys

TOP = os.path.dirname(os.path.dirname(os.path.abspath(__file__)))


def name_of(path):
    """What a table calls the file: its own name, or that of its folder where the file is one of an example."""
    stem = os.path.splitext(os.path.basename(path))[0]
    return os.path.basename(os.path.dirname(os.path.abspath(path))) if stem in ("code", "model") else stem


def emitted(words, examples, folder):
    """The name and the C file of each word, or of each example where `all` is the word."""
    found = []
    for path in [os.path.join(TOP, it) for it in examples] if words == ["all"] else words:
        code = os.path.abspath(path)
        if path.endswith(".mdl"):
            code = os.path.join(folder, f"{name_of(path)}.c")
            done = subprocess.run([os.path.join(TOP, "mdlc"), "compile", path, code], stdout=subprocess.PIPE, text=True)
            if done.returncode:
                sys.exit(f"{path}: {done.stdout.strip()}")
        found.append((name_of(path), code))
    return found


def print_table(head, rows):
    """A table of Markdown."""
    for row in (head, ["---"] * len(head), *rows):
        print("| " + " | ".join(str(it) for it in row) + " |")
