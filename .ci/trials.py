"""What the trials in Python share: the built program, and its calls."""

import os
import re
import subprocess
import sys
import tempfile
from contextlib import contextmanager

TOP = os.path.dirname(os.path.dirname(os.path.abspath(__file__)))
PROGRAM = f"{TOP}/crates/mdlc/out/mdlc"
# The status of a call by the first word of the last line that it prints.
STATUS = {"compiled": 0, "ticks": 0, "systems": 0, "refused": 3, "trace": 4, "script": 4, "read": 5, "code": 8, "stuck": 9}


class Unlike(Exception):
    """A call that ends otherwise than it must."""


@contextmanager
def own_folder():
    """Stays in an empty folder while the program, which is built where it isn't, is tried."""
    # It then says how it is used.
    if subprocess.run([f"{TOP}/mdlc"], stdout=subprocess.DEVNULL).returncode != 2:
        sys.exit(f"{os.path.basename(sys.argv[0])}: there is no program")
    with tempfile.TemporaryDirectory() as folder:
        os.chdir(folder)
        yield


def tables(folder):
    """The tables of a folder of `.ci` that the words name, all where there are none."""
    return sys.argv[1:] or sorted(os.listdir(f"{TOP}/.ci/{folder}"))


def write(name, text):
    """Writes a file of the bytes that these characters are in Latin-1."""
    with open(name, "w", encoding="latin1", newline="") as it:
        it.write(text)


def ends(text, *words):
    """Calls the program, which must print this text, where `*` is any number, and end with its status. What it has printed."""
    status = STATUS[text.splitlines()[-1].split(" ")[0]]
    ran = subprocess.run([PROGRAM, *words], stdin=subprocess.DEVNULL, stdout=subprocess.PIPE)
    put = ran.stdout.decode("latin1")
    if ran.returncode != status or not re.fullmatch("[0-9]+".join(map(re.escape, text.split("*"))), put):
        raise Unlike(f"{words[0]}: wanted status {status} and\n{text}but it was status {ran.returncode} and\n{put}")
    return put
