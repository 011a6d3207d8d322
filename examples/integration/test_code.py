#!/usr/bin/env python3
"""Tests of the code of this folder's model, from Python."""

import os
import sys
import unittest

sys.dont_write_bytecode = True

from load_code import load_code

FOLDER = os.path.dirname(os.path.abspath(__file__))
FFI, CODE = load_code(os.path.join(FOLDER, "code.c"))
ONE = 1 << 8


def rows_of(name):
    """The numbers of a file of this folder, line by line."""
    with open(os.path.join(FOLDER, name), encoding="ascii") as file:
        return [[int(word) for word in line.split()] for line in file]


def started():
    """An instance that was started."""
    model = FFI.new("struct root *")
    CODE.root_start(model)
    return model


def step(model, wanted, seen):
    """The outputs of the next tick."""
    CODE.root_step(model, wanted, seen)
    return [model.y1, model.y2, model.y3]


class Code(unittest.TestCase):
    def test_trace(self):
        model = started()
        self.assertEqual([step(model, *row) for row in rows_of("trace")], rows_of("outputs"))

    def test_speeds(self):
        """A speed of 3.5 is wanted and 1.25 is seen: half of 2.25."""
        outputs = step(started(), round(3.5 * ONE), round(1.25 * ONE))
        self.assertEqual(outputs[0] / ONE, 1.125)

    def test_greatest_error(self):
        """The error is held at the greatest number of its type, 32767, and its half is rounded down."""
        self.assertEqual(step(started(), 32767, -32768)[0], 16383)

    def test_copy(self):
        """A copy of an instance goes on as the instance does."""
        model = started()
        step(model, 2560, 0)
        copy = FFI.new("struct root *", model[0])
        self.assertEqual(step(model, 2560, 512), step(copy, 2560, 512))

    def test_second_start(self):
        """A start behind some ticks gives the same outputs again."""
        model = started()
        first = [step(model, *row) for row in rows_of("trace")[:3]]
        CODE.root_start(model)
        self.assertEqual([step(model, *row) for row in rows_of("trace")[:3]], first)


if __name__ == "__main__":
    unittest.main()
