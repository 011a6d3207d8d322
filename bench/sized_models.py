"""Models of a given size, for `bench/table` and `bench/instructions`. Each function gives the text of one.

usage: python3 -B bench/sized_models.py NAME SIZE [ORDER]   the model of the function of this name"""

import os
import sys

sys.path.insert(0, os.path.join(os.path.dirname(os.path.dirname(os.path.abspath(__file__))), ".ci"))
from mdl_writer import Model  # noqa: E402

TYPES = ["int8", "uint8", "int16", "uint16", "int32", "uint32", "boolean", "fixdt(1,24,5)"]


def in_order(items, order):
    """The items, with `backward` the last first."""
    return items[::-1] if order == "backward" else items


def delay_chain(count, order="forward"):
    """A chain of so many Unit Delays between an Inport and an Outport, in this order or, with `backward`, in the other."""
    it = Model()
    names = [f"d{at}" for at in range(count + 1)]
    blocks = [("Inport", names[0], {"OutDataTypeStr": "int32"})]
    blocks += [("UnitDelay", name, {"InitialCondition": at}) for at, name in enumerate(names[1:], 1)]
    blocks += [("Outport", "o", {})]
    for kind, name, parameters in in_order(blocks, order):
        it.block(kind, name, **parameters)
    it.chain([*names, "o"])
    return it.text()


def mixed_rows(count, order="forward"):
    """So many rows of eight types: in each chain a Constant, Unit Delays that inherit its type, and a Terminator; with `backward` each
    row is before the one that it inherits from."""
    it = Model()
    chains = [[f"c{chain}_{at}" for at in range(count // 8)] for chain in range(1, 9)]
    for type, names in zip(TYPES, chains):
        for name in in_order(names, order):
            if name == names[0]:
                it.block("Constant", name, Value=1, OutDataTypeStr=type)
            elif name == names[-1]:
                it.block("Terminator", name)
            else:
                it.block("UnitDelay", name, InitialCondition=1)
    for names in chains:
        it.chain(names)
    return it.text()


def gain_loop(count):
    """A loop of so many Gains, each of which needs the one before: refused as a loop."""
    it = Model()
    names = [f"g{at}" for at in range(count)]
    for name in names:
        it.block("Gain", name, OutDataTypeStr="int32")
    it.chain([*names, names[0]])
    return it.text()


def late_loop(count):
    """So many rows: a chain of Gains after a Ground, and last two Gains that need each other: refused as a loop."""
    it = Model()
    names = [f"g{at}" for at in range(count)]
    it.block("Ground", names[0])
    for name in names[1:]:
        it.block("Gain", name, OutDataTypeStr="int32")
    it.chain(names[:-2])
    it.chain([*names[-2:], names[-2]])
    return it.text()


def empty_subsystems(count):
    """So many SubSystem blocks beside each other."""
    it = Model()
    for at in range(count):
        it.open_subsystem(f"s{at}")
        it.close_subsystem()
    return it.text()


def many_ports(count):
    """So many blocks, of which each fifth is a SubSystem that holds two Inports and two Outports."""
    it = Model()
    for at in range(0, count, 5):
        it.open_subsystem(f"s{at // 5}")
        for port in (1, 2):
            it.block("Inport", f"x{port}", Port=port)
            it.block("Outport", f"y{port}", Port=port)
        it.close_subsystem()
    return it.text()


def subsystem_chain(count):
    """A chain of so many subsystems of eight rows each: the SubSystem, and in it an Inport, five Unit Delays and an Outport."""
    it = Model()
    names, inner = [f"s{at}" for at in range(count + 2)], [f"d{at}" for at in range(7)]
    it.block("Inport", names[0], OutDataTypeStr="int32")
    for name in names[1:-1]:
        it.open_subsystem(name)
        it.block("Inport", inner[0])
        for at in range(1, 6):
            it.block("UnitDelay", inner[at], InitialCondition=at)
        it.block("Outport", inner[6])
        it.chain(inner)
        it.close_subsystem()
    it.block("Outport", names[-1])
    it.chain(names)
    return it.text()


def subsystem_rows(count):
    """A chain of subsystems of eight rows each, with at most so many rows together."""
    return subsystem_chain(count // 8 - 1)


def deep_systems(count):
    """Systems inside each other, 32 subsystems deep, with so many rows together: a chain of Unit Delays in each."""
    it = Model()
    names = [f"d{at}" for at in range(count // 33 - 2)]
    for level in range(33):
        it.block("Inport", names[0], **({} if level else {"OutDataTypeStr": "int32"}))
        for name in names[1:]:
            it.block("UnitDelay", name)
        it.block("Outport", "o")
        if level < 32:
            it.open_subsystem("s")
    it.chain([*names, "o"])
    for _ in range(32):
        it.close_subsystem()
        it.chain([*names, "s", "o"])
    return it.text()


def lines_in_reverse(count):
    """A chain of Unit Delays, so many rows, whose lines are in the reverse order of their blocks."""
    it = Model()
    names = [f"d{at}" for at in range(count)]
    it.block("Inport", names[0], OutDataTypeStr="int32")
    for name in names[1:-1]:
        it.block("UnitDelay", name)
    it.block("Outport", names[-1])
    for at in reversed(range(count - 1)):
        it.wire(names[at], names[at + 1])
    return it.text()


def many_periods(count):
    """So many rows of which each fourth has a sample time of its own, no two the same: 5,000 of 20,000."""
    it = Model()
    periods = [at for at in range(60, 720721) if 720720 % at == 0]
    groups = range((count + 3) // 4)
    for at in groups:
        offset, place = divmod(at, len(periods))
        it.block("Constant", f"c{at}", Value=1, OutDataTypeStr="int8")
        it.block("UnitDelay", f"d{at}", SampleTime=f"[{periods[place]}, {offset}]")
        it.block("ZeroOrderHold", f"h{at}")
        it.block("Terminator", f"t{at}")
    for at in groups:
        it.chain([f"c{at}", f"d{at}", f"h{at}", f"t{at}"])
    return it.text()


MODELS = [
    delay_chain, mixed_rows, gain_loop, late_loop, empty_subsystems, many_ports, subsystem_chain, subsystem_rows, deep_systems,
    lines_in_reverse, many_periods,
]


def main(words):
    if len(words) < 2:
        print(__doc__, file=sys.stderr)
        return 2
    name, size, *order = words
    print(next(it for it in MODELS if it.__name__ == name)(int(size), *order), end="")
    return 0


if __name__ == "__main__":
    sys.exit(main(sys.argv[1:]))
