"""Random scripts, right and wrong, by which the built program drives each system of an accepted model."""

import drives
from code_rules import Stuck
from model_rows import CONTROL_NAMES
from model_values import bounds

WORDS = ["Out", "OUT", "outs", "updat", "updates", "out1", "up", "1", "#", "\0", "out", "update"]
FIELDS = ["x", "+1", "-", "--1", "1.0", "1e3", "0x1", "1,", "1-", "\xb2", "\0", "\r", "1\r"]
FIELDS += ["1234567890123456789", "-1234567890123456789", "0000000000000000001"]
FUNCTIONS = ["0", "-0", "-1", "1", "2", "3", "33", "257", "65537", "2147483648", "4294967297", "999999999999999999", "-999999999999999999"]
LINES = [[], ["out"], ["update"], ["out", "0"], ["out", "1"], ["out", "-0"], ["#", "out"], ["\r"], ["out", "update"], ["update", "out"]]
BYTES = " \t\r\n\0x-+.019ou\xff"
BLANKS = [" "] * 9 + ["\t", "  ", " \t "]
NO_SYSTEMS = ["x", "00", "1.0", "Top", "TOP", "root", "top ", " top", "top.", "s1", "+1", "0x1", "1 ", "4294967295", "18446744073709551616"]


def some_row(chance, types):
    """Numbers of these types, with zeros and with numbers at the ends of their types."""
    def number(least, greatest):
        return chance.choice([least, greatest, chance.randint(least, greatest), sorted((least, greatest, chance.randint(-9, 9)))[1]])

    return [0 if chance.random() < 0.4 else number(*bounds(it)) for it in types]


def digits_of(chance, number):
    """A number as a script may have it: zeros may stand before its digits, and a sign before 0."""
    digits = str(abs(number)).zfill(chance.choice([2, 18]) if chance.random() < 0.05 else 1)
    return "-" * (number < 0 or number == 0 and chance.random() < 0.1) + digits


def some_numbers(chance, inputs):
    """Values by their inputs; controls are often above 0."""
    numbers = dict(zip(inputs, some_row(chance, [it.type for it in inputs])))
    return numbers | {it: 1 for it in inputs if it.name in CONTROL_NAMES and chance.random() < 0.5}


def lawful_lines(chance, interface, ticks):
    """Calls by their fields, and the types of their values: in each tick the functions in any order, and the update. The last tick may stay
    without some of them."""
    lines, functions = [], list(range(1, len(interface.profile) + 1))
    for _ in range(ticks):
        numbers = some_numbers(chance, interface.inputs)
        chance.shuffle(functions)
        for function in [*functions, None]:
            word, inputs = ["update"] if function is None else ["out", digits_of(chance, function)], interface.inputs_of(function)
            lines.append((word + [digits_of(chance, numbers[it]) for it in inputs], [it.type for it in inputs]))
    return lines[: chance.randrange(len(lines) + 1)] if chance.random() < 0.3 else lines


def with_faults(chance, fields, types):
    """The fields of a call, with faults among them: perhaps none, or several."""

    def is_lucky(often):
        """Whether a chance of this share comes."""
        return chance.random() < often

    fields, first = list(fields), len(fields) - len(types)
    for at, type in enumerate(types, first):
        least, greatest = bounds(type)
        far = [least - 1, greatest + 1, greatest + 2**32, 1 - 10**18, 10**18 - 1]
        fields[at] = str(chance.choice(far if is_lucky(0.5) else some_row(chance, [type]))) if is_lucky(0.4) else fields[at]
    if is_lucky(0.15):
        at = chance.randrange(1, len(fields) + 1)
        fields[at : at + 1] = chance.choice([[], [*fields[at : at + 1], "1"]])
    if is_lucky(0.15):
        fields[1:2] = [chance.choice(FUNCTIONS)]
    if is_lucky(0.07):
        fields[chance.randrange(len(fields))] = chance.choice(FIELDS)
    if is_lucky(0.07):
        fields[0] = chance.choice(WORDS)
    return fields


def wrong_lines(chance, lines):
    """The lines with one of them gone, twice there or at another place, with one more, or with faults in one; or with two of these."""
    lines = list(lines) or [(["out"], [])]
    what = chance.choice(["gone", "twice", "moved", "more", "as it is"])
    at, other = chance.randrange(len(lines)), chance.randrange(len(lines))
    if what == "more":
        lines.insert(at, (chance.choice(LINES), []))
    elif what != "as it is":
        line = lines[at] if what == "twice" else lines.pop(at)
        lines[other:other] = [] if what == "gone" else [line]
    at = chance.choice([at, other])
    if (what == "as it is" or chance.random() < 0.5) and at < len(lines) and lines[at][0]:
        lines[at] = with_faults(chance, *lines[at]), []
    return lines


def line_of(chance, fields):
    """The text of a line, with blanks at its ends too; now and then it is about as long as a line may be."""
    parts = [part for it in fields for part in (it, chance.choice(BLANKS))][:-1]
    parts = [chance.choice(BLANKS), *parts, chance.choice(BLANKS)] if chance.random() < 0.1 else parts
    if chance.random() < 0.01:
        at = chance.randrange(len(parts) + 1)
        parts.insert(at, " " * (chance.choice([4095, 4096, 4097, 9000]) - len("".join(parts))))
    return "".join(parts)


def script_of(chance, lines):
    """The bytes of a script of these lines."""
    end = chance.choice(["\n"] * 4 + ["\r\n"])
    text = "".join(line_of(chance, fields) + end for fields, _ in lines)
    return text[: len(text) - chance.choice([0, 0, 0, len(end), len(end), 1])].encode("latin1")


def damaged(chance, script):
    """The script with a byte changed, or cut."""
    at, byte = chance.randrange(len(script) + 1), chance.choice(BYTES).encode("latin1")
    before, after, rest = script[:at], script[at:], script[at + 1 :]
    return chance.choice([before, before + byte + after, before + byte + rest, before + rest])


def some_script(chance, interface, is_wrong):
    """A lawful script, or one with something wrong."""
    lines = lawful_lines(chance, interface, chance.choice([1, 2, 2, 3, 4, 5] if is_wrong else [0, 1, 2, 4, 8, 16, 24]))
    script = script_of(chance, wrong_lines(chance, lines) if is_wrong else lines)
    return damaged(chance, script) if is_wrong and chance.random() < 0.1 else script


def unknown_word(chance, model):
    """A word that names no system of the model."""
    known = drives.systems_of(model)
    near = [f"{prefix}{word}" for word in known for prefix in ("0", "s", "+")] + [str(int(word) + 2**32) for word in known if word != "top"]
    rows = [str(at) for at in range(len(model.rows) + 2)]
    return chance.choice([it for it in chance.choice([near, rows, NO_SYSTEMS]) if it not in known])


def compare_drive(model, code, word, script, program):
    """What differs in one drive, or None. The code of the model must be written again, but where no system has the word."""
    program.write("script", script)
    try:
        status, text = drives.driven(model, code, word, script)
    except (AssertionError, Stuck) as why:
        return "drive", word, repr(why)
    kind = text.splitlines()[-1].split()[3] if status else "done"
    program.drives[kind] += 1
    names = [f"{program.folder}/{it}" for it in ("model", "driven", "script")]
    difference = program.differs(["drive", *names[:2], word, names[2]], status, text)
    is_written = program.take("driven") == (None if kind == "NoSubsystem" else code)
    return difference or (None if is_written else ("drive", word, "other code"))


def compare_drives(chance, model, program):
    """What differs where the program drives the systems of an accepted model, or None."""
    code, systems = program.read("code"), drives.systems_of(model)
    kinds = [(word, system, is_wrong) for word, system in systems.items() for is_wrong in (False, True) * (1 + len(system.controls()))]
    scripts = [(word, some_script(chance, drives.Interface(system), is_wrong)) for word, system, is_wrong in kinds]
    scripts += [(unknown_word(chance, model), b"")] * (chance.random() < 0.3)
    return next(filter(None, (compare_drive(model, code, *it, program) for it in scripts)), None)
