"""Models and other texts in a few words, for the tables of `cases/`. For tests in Rattle `crates/test_models` writes the
same models."""

import re

from mdl_writer import Model

TIMES = re.compile(r'(\d+) times (?:\(([^()]*)\)|"([^"]*)")')


def repeated(text):
    """The text with what is there several times written out, as `3 times (x@ )`: `x0 x1 x2 `; `@+1` is one more. What has
    parentheses is in quotes, as `2 times "f(@);"`: `f(0);f(1);`."""
    count = 1
    while count:
        text, count = TIMES.subn(lambda it: "".join(numbered(it[2] or it[3] or "", at) for at in range(int(it[1]))), text)
    return text


def numbered(text, at):
    """The text with its `@`s for the copy of this number."""
    return text.replace("@+1", str(at + 1)).replace("@", str(at))


def unescaped(text):
    """The text with its escapes, as `\\n`, replaced by what they stand for."""
    return text.encode("latin1").decode("unicode_escape")


def lines_of(text):
    """The lines between ` / `, each with its end."""
    return unescaped(text.replace(" / ", "\n")) + "\n"


def filled(frame, words):
    """The frame with the words, which `|` parts, in place of its `_`, one after the other."""
    for word in words.split("|"):
        frame = frame.replace("_", word.strip(), 1)
    return frame


def add_parameters(model, words):
    """Adds the parameters of a block by its words: its type, its name, and `name=value`."""
    for at, word in enumerate(words.split(" ")):
        name, equals, value = word.partition("=")
        model.param(*((name, value) if equals else ("Name" if at else "BlockType", word)))


def add_end(model, side, place):
    """Adds an end of a line, `Src` or `Dst`: its block, and its port if there is one."""
    block, _, port = place.partition(" ")
    model.param(f"{side}Block", block)
    if port:
        model.param(f"{side}Port", port)


def add_part(model, part):
    """Adds a part of a system:

    - a block, `Gain g Gain=2`: its type, its name and its parameters;
    - a line, `a 1 > g 1`: a block and its port, and another's;
    - a subsystem, `SubSystem s {`, its parts, and `}`;
    - lines of text, with ` / ` between them;
    - nothing.
    """
    source, wired, target = part.partition(" > ")
    if part == "}":
        model.close_subsystem()
    elif " / " in part:
        model.add(*part.split(" / "))
    elif part.endswith(" {"):
        model.open("Block")
        add_parameters(model, part.removesuffix(" {"))
        model.open("System")
    elif wired:
        with model.section("Line"):
            add_end(model, "Src", source)
            add_end(model, "Dst", target)
    elif part:
        with model.section("Block"):
            add_parameters(model, part)


def model_of(parts, settings):
    """The text of a model whose root has these parts, from line 3 on, with lines after its System."""
    model = Model()
    for part in parts.split("; "):
        add_part(model, part)
    return model.text(*settings)
