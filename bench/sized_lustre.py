"""Files of Lustre of a given size, for `bench/table` and `bench/instructions`. Each function gives the text of one.

usage: python3 -B bench/sized_lustre.py NAME SIZE [ORDER]   the file of the function of this name"""

import sys


def node(name, names, equations):
    """A node of one input and one output, with these further names."""
    declared = f"var {' '.join(f'{it}: int;' for it in names)}\n" if names else ""
    return f"node {name}(u1: int) returns (y1: int);\n{declared}let\n{''.join(equations)}tel;\n"


def in_chain(others, order, equation):
    """The last node: its output and so many other names, each of which reads the one before; with `backward` the last one is declared
    and given first."""
    names = ["u1", "y1", *(f"x{at}" for at in range(others))]
    turn = -1 if order == "backward" else 1
    lines = [f"  {name} = {equation(name, before)};\n" for before, name in zip(names, names[1:])]
    return node("root", names[2:][::turn], lines[::turn])


def equations(count, order="forward"):
    """One node of so many equations in a chain."""
    return in_chain(count - 1, order, lambda name, before: (
        f"(if ({before} > 500) then ({before} - 1) else (({before} + (3 -> (pre {name}))) mod 1009))"))


def nested_calls(count, order="forward"):
    """So many calls: a chain of calls of a node that calls another one, and so on, 32 deep."""
    text = node("n1", [], ["  y1 = (u1 + (0 -> ((pre u1) mod 7)));\n"])
    for level in range(2, 33):
        text += node(f"n{level}", ["x1"], [f"  x1 = call n{level - 1}(u1);\n", "  y1 = (x1 - 1);\n"])
    return text + in_chain(count // 32 - 1, order, lambda name, before: f"call n32({before})")


def small_nodes(size):
    """At least so many bytes of small nodes."""
    texts, length = [], 0
    while length < size:
        texts.append(node(f"n{len(texts)}", ["x1"], ["  x1 = (if (u1 > 7) then (u1 - 1) else u1);\n", "  y1 = (x1 -> (pre x1));\n"]))
        length += len(texts[-1])
    return "".join(texts)


FILES = [equations, nested_calls, small_nodes]


def main(words):
    if len(words) < 2:
        print(__doc__, file=sys.stderr)
        return 2
    name, size, *order = words
    print(next(it for it in FILES if it.__name__ == name)(int(size), *order), end="")
    return 0


if __name__ == "__main__":
    sys.exit(main(sys.argv[1:]))
