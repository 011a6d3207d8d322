"""Each replaced block, imported and run over 1,000 numbers, gives those of its Simulink rule, computed apart."""

import subprocess
import tempfile
import unittest
from collections.abc import Callable, Mapping, Sequence
from fractions import Fraction
from pathlib import Path

from .drawings import around
from .judging import MDLC, lines_of, trace_of, verdict
from .rules import COMPARISONS, ROUNDINGS, Fixed, Integrator, Relay, saturated

from mdlc_import.importing import imported
from mdlc_import.values import Scope

TICKS, FEWER = 1000, 30
BYTE, WORD, LONG = Fixed(True, 8, 0), Fixed(True, 16, 8), Fixed(True, 32, 16)
BARE_BYTE, BARE_WORD, TRUTH, FRACTION = Fixed(False, 8, 0), Fixed(False, 16, 4), Fixed(False, 1, 0), Fixed(True, 16, 15)
Rule = Callable[[Sequence[Fraction]], int]


def plain(text: str) -> str:
    """The plain model that is written for a model."""
    outcome = imported("m.mdl", text.encode("latin-1"), Scope())
    if outcome.text is None:
        raise AssertionError("\n".join(it.text() for it in outcome.findings))
    return outcome.text


def findings(text: str) -> list[str]:
    """What is said of a model."""
    return [it.text() for it in imported("m.mdl", text.encode("latin-1"), Scope()).findings]


def run_by_mdlc(text: str, trace: list[list[int]]) -> list[list[int]]:
    """The outputs by the built compiler."""
    with tempfile.TemporaryDirectory() as folder:
        model, lines = Path(folder, "model.mdl"), Path(folder, "trace")
        model.write_bytes(text.encode("latin-1"))
        lines.write_text("".join(" ".join(map(str, it)) + "\n" for it in trace))
        done = subprocess.run([MDLC, "run", model, Path(folder, "code.c"), lines], capture_output=True, check=True, text=True)
        return [[int(word) for word in line.split()] for line in done.stdout.splitlines()[:-1]]


class BlockTest(unittest.TestCase):
    """Blocks between Inports and an Outport. The first form of each type of block runs long, the others less."""

    def setUp(self) -> None:
        self.ticks = TICKS

    def gives(self, kind: str, parameters: Mapping[str, str], types: Sequence[Fixed], rule: Rule, before: str = "") -> str:
        """The block over these types of inputs must give what the rule does; gives the plain text."""
        text = plain(around(kind, parameters, [it.text for it in types], before))
        trace = trace_of(verdict(text), seed=len(text), ticks=self.ticks)
        self.ticks = FEWER
        expected = [[rule([it.real(number) for it, number in zip(types, numbers)])] for numbers in trace]
        self.assertEqual(lines_of(text, trace), expected, (kind, parameters))
        if MDLC.exists():
            self.assertEqual(run_by_mdlc(text, trace), expected, (kind, parameters))
        self.assertIn('BlockType SubSystem\n      Name "Block"', text)
        return text

    def refused(self, kind: str, parameters: Mapping[str, str], types: Sequence[Fixed], phrase: str) -> None:
        """The block must be refused with a sentence that names it and has this phrase."""
        said = [it for it in findings(around(kind, parameters, [it.text for it in types])) if it.startswith("refused")]
        self.assertTrue(any(phrase in it and "m/Block" in it for it in said), said)

    def test_saturate(self) -> None:
        for given, wanted in ((WORD, None), (WORD, BYTE), (LONG, WORD), (BARE_WORD, WORD), (BYTE, BARE_BYTE)):
            out = wanted or given
            for rounding in ROUNDINGS:
                for lower, upper in (("-3.3", "7.77"), ("0", "0"), ("-1000", "100")):
                    parameters = {"LowerLimit": lower, "UpperLimit": upper, "RndMeth": rounding}
                    if wanted:
                        parameters["OutDataTypeStr"] = wanted.text
                    ends = Fraction(lower), Fraction(upper)
                    self.gives("Saturate", parameters, [given], lambda it: saturated(it[0], out, rounding, *ends))

    def test_saturate_by_hand(self) -> None:
        """Inputs of fixdt(1,16,8): 2.5 is 640, the limits 1.5 and -0.75 are 384 and -192."""
        text = plain(around("Saturate", {"UpperLimit": "1.5", "LowerLimit": "-0.75"}, [WORD.text]))
        self.assertEqual(lines_of(text, [[640], [384], [383], [0], [-191], [-192], [-193], [-32768]]),
                         [[384], [384], [383], [0], [-191], [-192], [-192], [-192]])
        # To int8 by Nearest: 1.5 rounds up to 2, the upper limit 1.6 is 2 too, and -0.75 is -1.
        parameters = {"UpperLimit": "1.6", "LowerLimit": "-0.75", "OutDataTypeStr": "int8", "RndMeth": "Nearest"}
        text = plain(around("Saturate", parameters, [WORD.text]))
        self.assertEqual(lines_of(text, [[384], [640], [127], [128], [-127], [-128], [-129], [-32768]]),
                         [[2], [2], [0], [1], [0], [0], [-1], [-1]])

    def test_saturate_without_a_limit(self) -> None:
        for lower, upper, ends in (("-inf", "2", (-1000, 2)), ("1", "inf", (1, 1000))):
            least, greatest = (Fraction(it) for it in ends)
            rule: Rule = lambda it: saturated(it[0], WORD, "Floor", least, greatest)  # noqa: E731
            self.gives("Saturate", {"LowerLimit": lower, "UpperLimit": upper}, [WORD], rule)
        self.refused("Saturate", {"LowerLimit": "3", "UpperLimit": "2"}, [WORD], "is above")

    def test_min_max(self) -> None:
        for function, best in (("min", min), ("max", max)):
            for count in (1, 2, 5):
                parameters = {"Function": function, "Inputs": str(count)}
                self.gives("MinMax", parameters, [WORD] * count, lambda it: WORD.stored(best(it)))
            for saturates in (True, False):
                parameters = {"Function": function, "Inputs": "3", "OutDataTypeStr": BYTE.text, "RndMeth": "Round"}
                parameters["SaturateOnIntegerOverflow"] = "on" if saturates else "off"
                stored = BYTE.stored
                rule: Rule = lambda it: best(stored(one, "Round", saturates) for one in it)  # noqa: E731
                self.gives("MinMax", parameters, [WORD, BARE_WORD, BARE_BYTE], rule)
        self.refused("MinMax", {"Inputs": "2"}, [WORD, BYTE], "write OutDataTypeStr")

    def test_abs(self) -> None:
        for given in (BYTE, WORD, LONG, BARE_BYTE):
            for saturates in (True, False):
                flag = "on" if saturates else "off"
                rule: Rule = lambda it: given.stored(abs(it[0]), "Floor", saturates)  # noqa: E731
                self.gives("Abs", {"SaturateOnIntegerOverflow": flag}, [given], rule)
                for rounding in ROUNDINGS:
                    parameters = {"SaturateOnIntegerOverflow": flag, "RndMeth": rounding, "OutDataTypeStr": BYTE.text}
                    narrow: Rule = lambda it: BYTE.stored(abs(it[0]), rounding, saturates)  # noqa: E731
                    self.gives("Abs", parameters, [given], narrow)

    def test_abs_by_hand(self) -> None:
        """The least number of int8 has no positive one: 127 where it saturates, itself where it doesn't."""
        for flag, least in (("on", 127), ("off", -128)):
            text = plain(around("Abs", {"SaturateOnIntegerOverflow": flag}, ["int8"]))
            self.assertEqual(lines_of(text, [[-128], [-127], [-1], [0], [5]]), [[least], [127], [1], [0], [5]])

    def test_compare_to_constant(self) -> None:
        for sign, compares in COMPARISONS.items():
            for given, constant in ((WORD, "-3.33"), (BARE_BYTE, "7"), (BYTE, "0")):
                number = given.real(given.stored(Fraction(constant)))
                for text in ("boolean", "uint8"):
                    parameters = {"relop": sign, "const": constant, "OutDataTypeStr": text}
                    self.gives("CompareToConstant", parameters, [given], lambda it: int(compares(it[0], number)))
        self.refused("CompareToConstant", {"const": "300"}, [BARE_BYTE], "isn't in the range of uint8")

    def test_compare_as_a_link(self) -> None:
        for name, number in (("Constant", 3), ("Zero", 0)):
            source = f"simulink/Logic and Bit\\nOperations/Compare\\nTo {name}"
            parameters = {"SourceBlock": source, "relop": ">", "const": "3", "LogicOutDataTypeMode": "uint8"}
            text = self.gives("Reference", parameters, [WORD], lambda it: int(it[0] > number))
            self.assertIn('OutDataTypeStr "uint8"', text)

    def test_compare_to_zero(self) -> None:
        for sign, compares in COMPARISONS.items():
            for given in (WORD, BARE_BYTE, TRUTH):
                self.gives("CompareToZero", {"relop": sign}, [given], lambda it: int(compares(it[0], Fraction(0))))

    def test_bias(self) -> None:
        for given, bias in ((WORD, "-3.33"), (BARE_BYTE, "200"), (LONG, "0.1")):
            number = given.real(given.stored(Fraction(bias)))
            for saturates in (True, False):
                parameters = {"Bias": bias, "SaturateOnIntegerOverflow": "on" if saturates else "off"}
                self.gives("Bias", parameters, [given], lambda it: given.stored(it[0] + number, "Floor", saturates))
        self.refused("Bias", {"Bias": "-1"}, [BARE_BYTE], "isn't in the range of uint8")

    def test_sign(self) -> None:
        for given in (WORD, BYTE, BARE_WORD, TRUTH):
            self.gives("Signum", {}, [given], lambda it: given.stored(Fraction((it[0] > 0) - (it[0] < 0))))
        self.refused("Signum", {}, [FRACTION], "has no 1 and -1")

    def test_relay(self) -> None:
        for given, on, off in ((BYTE, "5", "-5"), (WORD, "0.75", "0.25"), (BARE_BYTE, "9", "9")):
            for wanted in (None, WORD, BARE_BYTE):
                out = wanted or given
                relay = Relay(Fraction(on), Fraction(off))
                parameters = {"OnSwitchValue": on, "OffSwitchValue": off, "OnOutputValue": "3", "OffOutputValue": "1"}
                if wanted:
                    parameters["OutDataTypeStr"] = wanted.text
                self.gives("Relay", parameters, [given], lambda it: out.stored(Fraction(3 if relay.step(it[0]) else 1)))
        self.refused("Relay", {"OnSwitchValue": "1", "OffSwitchValue": "2"}, [WORD], "is above")

    def test_relay_by_hand(self) -> None:
        """On from 5, off down to -5."""
        text = plain(around("Relay", {"OnSwitchValue": "5", "OffSwitchValue": "-5"}, ["int8"]))
        self.assertEqual(lines_of(text, [[4], [5], [4], [-4], [-5], [4], [127], [-128]]), [[0], [1], [1], [1], [0], [0], [1], [0]])

    def test_integrator(self) -> None:
        for wanted in (LONG, WORD):
            for saturates in (True, False):
                for rounding in ("Floor", "Nearest"):
                    parameters = {
                        "gainval": "2.5", "SampleTime": "0.125", "InitialCondition": "1.5", "OutDataTypeStr": wanted.text,
                        "RndMeth": rounding, "SaturateOnIntegerOverflow": "on" if saturates else "off",
                    }
                    whole = Integrator(wanted, Fraction(5, 16), rounding, saturates, wanted.stored(Fraction(3, 2)))
                    self.gives("DiscreteIntegrator", parameters, [WORD], lambda it: whole.step(it[0]))

    def test_integrator_with_limits(self) -> None:
        parameters = {
            "gainval": "1", "SampleTime": "0.5", "InitialCondition": "9", "OutDataTypeStr": LONG.text, "LimitOutput": "on",
            "UpperSaturationLimit": "4", "LowerSaturationLimit": "-inf", "SaturateOnIntegerOverflow": "on",
        }
        whole = Integrator(LONG, Fraction(1, 2), "Floor", True, LONG.stored(Fraction(4)), None, Fraction(4))
        self.gives("DiscreteIntegrator", parameters, [WORD], lambda it: whole.step(it[0]))
        both = {**parameters, "LowerSaturationLimit": "-2.5", "IntegratorMethod": "Accumulation: Forward Euler"}
        sums = Integrator(LONG, Fraction(1), "Floor", True, LONG.stored(Fraction(4)), Fraction(-5, 2), Fraction(4))
        self.gives("DiscreteIntegrator", both, [WORD], lambda it: sums.step(it[0]))

    def test_integrator_of_an_inherited_time(self) -> None:
        parameters = {"SampleTime": "-1", "OutDataTypeStr": LONG.text, "SaturateOnIntegerOverflow": "on"}
        whole = Integrator(LONG, Fraction(1, 4), "Floor", True, 0)
        self.gives("DiscreteIntegrator", parameters, [WORD], lambda it: whole.step(it[0]), 'FixedStep "0.25"')
        self.refused("DiscreteIntegrator", parameters, [WORD], "write its SampleTime")
        self.refused("DiscreteIntegrator", {}, [WORD], "Write OutDataTypeStr")
        self.refused("DiscreteIntegrator", {"OutDataTypeStr": LONG.text, "ExternalReset": "rising"}, [WORD], "ExternalReset")

    def test_integrator_by_hand(self) -> None:
        """int16 with K 2 and T 0.5: each output is the sum of the inputs before."""
        text = plain(around("DiscreteIntegrator", {"gainval": "2", "SampleTime": "0.5", "OutDataTypeStr": "int16"}, ["int16"]))
        self.assertEqual(lines_of(text, [[5], [-2], [0], [100]]), [[0], [5], [3], [3]])

    def test_memory_by_defaults(self) -> None:
        """The initial condition of a Memory under either of its names, of the block or of the defaults."""
        defaults = 'BlockParameterDefaults {\nBlock {\nBlockType Memory\n%s "3"\n}\n}'
        owns: list[tuple[dict[str, str], int]] = [({}, 3), ({"X0": "5"}, 5), ({"InitialCondition": "-2"}, -2)]
        for name in ("X0", "InitialCondition"):
            for own, start in owns:
                text = plain(around("Memory", own, ["int16"], defaults % name))
                self.assertEqual(lines_of(text, [[9], [8]]), [[start], [9]])

    def test_memory(self) -> None:
        text = plain(around("Memory", {"X0": "7"}, ["int16"]))
        trace = trace_of(verdict(text), 3, TICKS)
        self.assertEqual(lines_of(text, trace), [[7], *trace[:-1]])
        self.assertIn('BlockType UnitDelay\n      Name "Block"\n      InitialCondition "7"', text)


if __name__ == "__main__":
    unittest.main()
