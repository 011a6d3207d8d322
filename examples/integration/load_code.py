"""Compiles C that mdlc wrote to a shared library and opens it by cffi. The structs and the heads of the procedures are read from
the C itself, so nothing is written twice."""

import os
import re
import subprocess
import tempfile

from cffi import FFI

STRUCT = re.compile(r"^struct \w+ \{\n.*?^\};\n", re.M | re.S)
HEAD = re.compile(r"^(void \w+\(.*\)) \{$", re.M)


def load_code(path, compiler=os.environ.get("CC", "cc")):
    """The library of the C file, and the FFI that makes its structs."""
    with open(path, encoding="ascii") as file:
        text = file.read()
    ffi = FFI()
    ffi.cdef("".join(STRUCT.findall(text)))
    ffi.cdef("".join(f"{head};\n" for head in HEAD.findall(text)))
    with tempfile.TemporaryDirectory() as folder:
        library = os.path.join(folder, "code.so")
        subprocess.run([compiler, "-std=c99", "-O1", "-shared", "-fPIC", "-o", library, path], check=True)
        return ffi, ffi.dlopen(library)
