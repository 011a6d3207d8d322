"""Expressions and files of values, by numbers worked by hand."""

import unittest
from fractions import Fraction

from . import judging  # noqa: F401

from mdlc_import.findings import Refusal
from mdlc_import.formats import number, number_text
from mdlc_import.values import NoValue, Number, Scope, Value, evaluate, list_values, type_value
from mdlc_import.values_file import read_values

NAMES: dict[str, Value | NoValue] = {"Kp": Number(Fraction(5, 2)), "n": Number(Fraction(3)), "ctl.Ts": Number(Fraction(1, 100))}


class ExpressionTest(unittest.TestCase):
    """One expression each."""

    def test_numbers(self) -> None:
        expected = {
            "2^-3": "0.125", "1 / 8": "0.125", "(1/8)": "0.125", "-2^2": "-4", "2^3^2": "64", "2^-1^2": "0.25", "--3": "3", "Kp*2": "5",
            "ctl.Ts/2": "0.005", "1e-3": "0.001", "1.5d2": "150", "int8(200)": "127", "int8(-2.5)": "-3", "uint8(-1)": "0",
            "int16(7)/2": "4", "single(0.1)": "13421773/134217728", "hex2dec('FF')": "255", "true+true": "2", "1/3*3": "1",
            "[5]": "5", "2^-31": "1/2147483648",
            "double(int8(3))/2": "1.5", "boolean(4)": "1", "0.125;": "0.125", "(((2)))^2": "4", "1/3": "1/3",
        }
        for text, written in expected.items():
            value = evaluate(text, Scope(NAMES))
            assert isinstance(value, Number)
            self.assertEqual(number_text(value.value), written, text)
            self.assertEqual(number(written), value.value, text)

    def test_no_values(self) -> None:
        wrong = ["", "1+", "(1", "1)", "x", "pi", "1/0", "0^-1", "2^0.5", "2^401", "1e401", "int8(1)+int16(1)", "[1 2]", "f(1)"]
        for text in [*wrong, "'a'", "1 2", "single(1)+1"]:
            with self.assertRaises(NoValue, msg=text):
                evaluate(text, Scope(NAMES))

    def test_lists(self) -> None:
        cases = {"[0.1 0]": ["0.1", "0"], "[0.1;0]": ["0.1", "0"], "[1 -1]": ["1", "-1"], "[1 - 1]": ["0"], "[1, - 1]": ["1", "-1"]}
        for text, expected in cases.items():
            self.assertEqual([it.value for it in list_values(text, Scope())], [Fraction(it) for it in expected], text)

    def test_types(self) -> None:
        expected = {
            "fixdt(1,16,8)": "fixdt(1,16,8)", "fixdt(0,8,0)": "uint8", "fixdt(1,32,2^-16,0)": "fixdt(1,32,16)",
            "fixdt(true,16,n)": "fixdt(1,16,3)",
            "sfix32_En16": "fixdt(1,32,16)", "ufix1": "boolean", "fixdt('int8')": "int8", "numerictype(0,16,4)": "fixdt(0,16,4)",
        }
        for text, written in expected.items():
            self.assertEqual(type_value(text, Scope(NAMES)).text(), written)
        wrong = ["fixdt(0,16)", "fixdt(1,16,-2)", "fixdt(1,33,0)", "fixdt(1,16,3,0)", "fixdt(1,16,2^-4,1)", "sfix16_E3"]
        for text in [*wrong, "int64", "3", "Enum: Mode"]:
            with self.assertRaises(NoValue, msg=text):
                type_value(text, Scope(NAMES))

    def test_exact_numbers_that_have_no_text(self) -> None:
        self.assertIsNone(number_text(Fraction(10**18 + 1, 10**18 + 3)))
        self.assertEqual(number_text(Fraction(10**18 - 1)), "9" * 18)


class FileTest(unittest.TestCase):
    """Files of values."""

    def test_matlab_file(self) -> None:
        names: dict[str, Value | NoValue] = {}
        text = "clear all; clc % begin\nKp = 2.5;  % gain\nTs = 1/100, T = fixdt(1,16,12)\nKi = Kp * ...\n  2;\nv = [1 2\n 3];\nKp = 3\n"
        read_values("v.m", text, names)
        known = {name: it.value for name, it in names.items() if isinstance(it, Number)}
        self.assertEqual(known, {"Kp": 3, "Ts": Fraction(1, 100), "Ki": 5})
        self.assertIsInstance(names["v"], NoValue)

    def test_other_lines(self) -> None:
        for text in ("if x\n", "Kp == 2\n", "function f\n", "x\n", "Kp.a(1) = 2\n"):
            with self.assertRaises(Refusal, msg=text):
                read_values("v", text, {})

    def test_use_of_what_has_no_value(self) -> None:
        names: dict[str, Value | NoValue] = {}
        read_values("v", "v = pi\nw = v + 1\n", names)
        with self.assertRaisesRegex(NoValue, "v line 1: `pi` has no exact value"):
            evaluate("w", Scope(names))


if __name__ == "__main__":
    unittest.main()
