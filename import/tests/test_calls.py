"""The program as it is called: statuses, what is printed, and what is written."""

import os
import subprocess
import sys
import tempfile
import unittest
from fractions import Fraction
from pathlib import Path

from .archives import archive_of, parts_of
from .drawings import around, block_text, line_text, model_text
from .judging import DATA, MDLC, TOP, lines_of, verdict

from mdlc_import.cli import run
from mdlc_import.importing import imported
from mdlc_import.values import Number, Scope

INPORT = block_text("Inport", "In1", {"OutDataTypeStr": "int16"})
OUTPORT = block_text("Outport", "Out1", {})


def findings(text: str) -> list[str]:
    """What is said of a model."""
    return [it.text() for it in imported("m.mdl", text.encode("latin-1"), Scope()).findings]


class CallTest(unittest.TestCase):
    """Calls in a folder of their own."""

    def setUp(self) -> None:
        self.holder = tempfile.TemporaryDirectory()
        self.addCleanup(self.holder.cleanup)
        self.folder = Path(self.holder.name)

    def write(self, name: str, text: str) -> str:
        """A file of the folder."""
        path = self.folder / name
        path.write_bytes(text.encode("latin-1"))
        return str(path)

    def test_values(self) -> None:
        model = self.write("m.mdl", around("Gain", {"Gain": "Kp/2", "OutDataTypeStr": "T", "SampleTime": "[Ts 0]"}, ["int16"]))
        values = self.write("values.m", "Kp = 5;\nTs = 1/50;\nT = fixdt(1,32,4);\n")
        out = str(self.folder / "out.mdl")
        self.assertEqual(run([model, "-o", out])[0], 3)
        self.assertFalse(os.path.exists(out))
        status, text = run([model, "-o", out, "--values", values])
        self.assertEqual(status, 0, text)
        written = Path(out).read_text("latin-1")
        for line in ('Gain "2.5"', 'OutDataTypeStr "fixdt(1,32,4)"', 'SampleTime "0.02"'):
            self.assertIn(line, written)
        self.assertEqual(sorted(os.listdir(self.folder)), ["m.mdl", "out.mdl", "values.m"])
        self.assertEqual(run([out, "-o", str(self.folder / "again.mdl")])[0], 0)
        self.assertEqual((self.folder / "again.mdl").read_text("latin-1"), written)

    def test_example_of_the_page(self) -> None:
        """With 8 bits after the point: 10 times 2.5 is 25; 100 times 2.5 is above the type's 128, and the limit is 64."""
        out = str(self.folder / "plain.mdl")
        status, text = run([str(DATA / "example.mdl"), "-o", out, "--values", str(DATA / "example.m")])
        self.assertEqual(status, 0, text)
        page = (TOP / "docs" / "IMPORT.md").read_text("utf-8")
        for line in [it.strip() for it in page.split("\n") if it.startswith(("    rewritten ", "    written "))]:
            self.assertIn(line.replace("plain.mdl", out), text)
        written = Path(out).read_text("latin-1")
        self.assertEqual(lines_of(written, [[2560], [25600], [-25600], [1]]), [[6400], [16384], [-16384], [2]])

    def test_statuses(self) -> None:
        model = self.write("m.mdl", around("Gain", {}, ["int16"]))
        out = str(self.folder / "out.mdl")
        wrong: list[list[str]] = [[], ["--help"], [model], [model, "-o"], [model, "-o", out, "-o", out], ["--explain", model, "-o", out]]
        for words in [*wrong, ["--mdlc", "x", model, "-o", out], [model, "-o", model]]:
            self.assertEqual(run(words)[0], 2, words)
        self.assertEqual(run(["--explain", model])[0], 0)
        self.assertEqual(run([str(self.folder / "none.mdl"), "-o", out])[0], 5)
        self.assertEqual(run([str(self.folder), "-o", out])[0], 5)
        self.assertEqual(run([model, "-o", str(self.folder / "none" / "out.mdl")])[0], 6)
        self.assertEqual(run([model, "-o", str(self.folder)])[0], 6)
        self.assertEqual(run([model, "-o", out, "--values", str(self.folder / "none")])[0], 5)
        self.assertEqual(run([model, "-o", out, "--values", self.write("v", "x\n")])[0], 3)
        self.assertEqual(run(["--explain", model, "--mdlc", str(self.folder / "none")])[0], 5)

    def test_an_output_by_a_link_is_not_what_is_read(self) -> None:
        model = self.write("m.mdl", around("Gain", {}, ["int16"]))
        os.symlink(model, self.folder / "link")
        self.assertEqual(run([model, "-o", str(self.folder / "link")])[0], 2)
        self.assertEqual(run([model, "-o", str(self.folder / "." / "m.mdl")])[0], 2)

    def test_explain_with_the_compiler(self) -> None:
        model = str(DATA.parents[2] / "examples" / "refusals" / "F07-kind.mdl")
        status, text = run(["--explain", model])
        self.assertEqual(status, 3)
        if MDLC.exists():
            self.assertIn("mdlc: refused F7 Unsupported line 3", text)
        else:
            self.assertIn("mdlc: not here", text)
        false = self.write("mdlc", "#!/bin/sh\necho refused F7 Unsupported line 3\nexit 3\n")
        os.chmod(false, 0o755)
        self.assertRegex(run(["--explain", model, "--mdlc", false])[1], r"mdlc: refused F7 Unsupported line 3: \S+ \(Scope\)")

    def test_without_the_library_for_xml(self) -> None:
        """Python without site packages has no defusedxml: SLX is refused plainly, and MDL is taken."""
        archive = self.folder / "m.slx"
        archive.write_bytes(archive_of(parts_of(DATA / "slx" / "tags.parts")))
        for path, status in ((archive, 5), (DATA / "slx" / "tags.mdl", 0)):
            words = [sys.executable, "-S", "-I", str(TOP / "import" / "mdlc-import"), str(path), "-o", str(self.folder / "out.mdl")]
            done = subprocess.run(words, capture_output=True, text=True, check=False)
            self.assertEqual((done.returncode, done.stderr), (status, ""))
            self.assertEqual("defusedxml is needed" in done.stdout, status == 5)


class RewritingTest(unittest.TestCase):
    """What is rewritten, what is refused, and the sentences."""

    def test_rings(self) -> None:
        """A delay and a Switch that inherit from each other: the Switch is named."""
        blocks = [INPORT, block_text("UnitDelay", "z", {}), block_text("Switch", "choose", {}), OUTPORT]
        lines = [line_text("z", "1", "choose", "1"), line_text("In1", "1", "choose", "2"), line_text("In1", "1", "choose", "3")]
        lines += [line_text("choose", "1", "z", "1"), line_text("z", "1", "Out1", "1")]
        said = findings(model_text(blocks, lines))
        self.assertEqual(len(said), 1)
        self.assertIn("m/choose (Switch)", said[0])
        self.assertIn("Write OutDataTypeStr at `choose`", said[0])

    def test_tags(self) -> None:
        """Without a sender, with two, and going round."""
        sender, reader = block_text("Goto", "g", {"GotoTag": "a"}), block_text("From", "f", {"GotoTag": "a"})
        into, out = line_text("In1", "1", "g", "1"), line_text("f", "1", "Out1", "1")
        self.assertTrue(any("no Goto with the tag `a`" in it for it in findings(model_text([INPORT, reader, OUTPORT], [out]))))
        again = block_text("Goto", "h", {"GotoTag": "a"})
        self.assertTrue(any("a second Goto" in it for it in findings(model_text([INPORT, sender, again, reader, OUTPORT], [into, out]))))
        ring = findings(model_text([sender, reader, OUTPORT], [line_text("f", "1", "g", "1"), out]))
        self.assertTrue(any("nothing gives its value" in it for it in ring), ring)

    def test_tags_of_a_vector(self) -> None:
        """A Mux whose signals go by a Goto to a Scope and a Demux."""
        blocks = [INPORT, block_text("Mux", "m", {"Inputs": "2"}), block_text("Goto", "g", {}), block_text("From", "f", {})]
        blocks += [block_text("Scope", "s", {}), block_text("Demux", "d", {"Outputs": "2"}), OUTPORT]
        ends = [("In1", "1", "m", "1"), ("In1", "1", "m", "2"), ("m", "1", "g", "1")]
        ends += [("f", "1", "s", "1"), ("f", "1", "d", "1"), ("d", "2", "Out1", "1")]
        outcome = imported("m.mdl", model_text(blocks, [line_text(*it) for it in ends]).encode(), Scope())
        self.assertIsNotNone(outcome.text, [it.text() for it in outcome.findings])
        self.assertEqual(sorted({it.kind for it in outcome.findings}), ["Demux", "From", "Goto", "Mux", "Scope"])

    def test_drawn_blocks_of_a_ground(self) -> None:
        """What is commented out gives 0 to blocks that are drawn; those that inherit from it have no type."""
        out = [("In1", "1", "g", "1"), ("g", "1", "b", "1"), ("b", "1", "Out1", "1")]
        for kind in ("Saturate", "Abs", "MinMax", "Relay", "CompareToZero", "CompareToConstant", "Bias", "Signum", "DiscreteIntegrator"):
            typed = {"OutDataTypeStr": "int8", "const": "1", "SampleTime": "1" if kind == "DiscreteIntegrator" else "-1"}
            none: dict[str, str] = {}
            for more in (none, typed):
                blocks = [INPORT, block_text("Gain", "g", {"Commented": "on"}), block_text(kind, "b", more), OUTPORT]
                outcome = imported("m.mdl", model_text(blocks, [line_text(*it) for it in out]).encode(), Scope())
                self.assertTrue(outcome.text is not None or any("refused" in it.text() for it in outcome.findings), kind)
                if outcome.text is not None:
                    self.assertNotIsInstance(verdict(outcome.text), str)

    def test_a_type_that_breaks_a_ring(self) -> None:
        """A block that is drawn keeps the type that it writes, also where it passes its input on."""
        limits = {"UpperLimit": "inf", "LowerLimit": "-inf"}
        kinds: list[tuple[str, dict[str, str]]] = [("MinMax", {"Inputs": "1"}), ("Saturate", limits), ("Abs", {})]
        for kind, more in kinds:
            blocks = [block_text(kind, "b", {**more, "OutDataTypeStr": "uint16"}), block_text("UnitDelay", "z", {}), OUTPORT]
            lines = [line_text("b", "1", "z", "1"), line_text("z", "1", "b", "1"), line_text("b", "1", "Out1", "1")]
            outcome = imported("m.mdl", model_text(blocks, lines).encode(), Scope())
            self.assertNotIsInstance(verdict(outcome.text or ""), str)

    def test_rounding_left_open(self) -> None:
        """`Simplest` is any rounding where no bit is lost: 0.5 times 8 bits after the point has 9 of them."""
        for wanted, is_taken in (("fixdt(1,32,9)", True), ("fixdt(1,32,8)", False)):
            text = around("Gain", {"Gain": "0.5", "RndMeth": "Simplest", "OutDataTypeStr": wanted}, ["fixdt(1,16,8)"])
            outcome = imported("m.mdl", text.encode(), Scope())
            self.assertEqual(outcome.text is not None, is_taken)
            self.assertIn("`Simplest`", outcome.findings[0].text())
            self.assertNotIn("RndMeth", outcome.text or "")

    def test_links(self) -> None:
        """Notes vanish; a link to a library of one's own is refused by its path, once."""
        for source, is_taken in (("simulink/Model-Wide\\nUtilities/DocBlock", True), ("mine/Filter", False)):
            blocks = [INPORT, block_text("Reference", "r", {"SourceBlock": source}), OUTPORT]
            outcome = imported("m.mdl", model_text(blocks, [line_text("In1", "1", "Out1", "1")]).encode(), Scope())
            self.assertEqual((outcome.text is not None, len(outcome.findings)), (is_taken, 1))

    def test_depth(self) -> None:
        """A block that is drawn is a subsystem, of which 32 may be around each other."""
        for depth, is_taken in ((31, True), (32, False)):
            inside = "\n".join([*[block_text("Inport", "In1", {}), block_text("Abs", "a", {}), block_text("Outport", "Out1", {})],
                                line_text("In1", "1", "a", "1"), line_text("a", "1", "Out1", "1")])
            for _ in range(depth):
                subsystem = block_text("SubSystem", "s", {}, f"System {{\n{inside}\n}}")
                parts = [block_text("Inport", "In1", {}), subsystem, block_text("Outport", "Out1", {})]
                inside = "\n".join([*parts, line_text("In1", "1", "s", "1"), line_text("s", "1", "Out1", "1")])
            text = inside.replace('Name "In1"', 'Name "In1"\n  OutDataTypeStr "int8"')
            outcome = imported("m.mdl", f"Model {{\nSystem {{\n{text}\n}}\n}}\n".encode(), Scope())
            self.assertEqual(outcome.text is not None, is_taken, [it.text() for it in outcome.findings])
            if outcome.text is not None:
                self.assertNotIsInstance(verdict(outcome.text), str)

    def test_masks(self) -> None:
        """A name of a mask comes before one of a values file, and code of a mask isn't run."""
        blocks = [block_text("Inport", "u", {}), block_text("Gain", "g", {"Gain": "K"}), block_text("Outport", "y", {})]
        inside = "\n".join(["System {", *blocks, line_text("u", "1", "g", "1"), line_text("g", "1", "y", "1"), "}"])
        lines = [line_text("In1", "1", "s", "1"), line_text("s", "1", "Out1", "1")]
        mask = {"MaskVariables": "K=@1;", "MaskValueString": "K*2"}
        cases: list[tuple[dict[str, str], str | None]] = [(mask, 'Gain "6"'), ({}, 'Gain "3"'), ({"MaskInitialization": "K = 1;"}, None)]
        for more, gain in cases:
            text = model_text([INPORT, block_text("SubSystem", "s", more, inside), OUTPORT], lines)
            outcome = imported("m.mdl", text.encode(), Scope({"K": Number(Fraction(3))}))
            self.assertEqual(outcome.text is not None, gain is not None)
            if outcome.text is not None:
                self.assertIn(gain or "", outcome.text)
            else:
                self.assertIn("code of the mask", outcome.findings[0].text())

    def test_masks_of_later_releases(self) -> None:
        """Parameters of a mask in sections: one, and several in an array."""
        one = '$ClassName "Simulink.MaskParameter"\nType "edit"\nName "K"\nValue "2*3"\n'
        objects = 'Object {\nName "a"\nValue "1"\n}\nObject {\nName "K"\nValue "6"\n}\n'
        several = f'Array {{\nType "Simulink.MaskParameter"\nDimension 2\n{objects}}}\n'
        for inside in (f"Object {{\n{one}}}\n", several):
            mask = f'Object {{\n$PropName "MaskObject"\n$ClassName "Simulink.Mask"\n{inside}}}\n'
            blocks = [block_text("Inport", "u", {}), block_text("Gain", "g", {"Gain": "K"}), block_text("Outport", "y", {})]
            system = "\n".join(["System {", *blocks, line_text("u", "1", "g", "1"), line_text("g", "1", "y", "1"), "}"])
            lines = [line_text("In1", "1", "s", "1"), line_text("s", "1", "Out1", "1")]
            text = model_text([INPORT, block_text("SubSystem", "s", {}, mask + system), OUTPORT], lines)
            outcome = imported("m.mdl", text.encode(), Scope({"K": Number(Fraction(3))}))
            self.assertIn('Gain "6"', outcome.text or "")

    def test_ignored_options(self) -> None:
        said = findings(around("Sum", {"AccumDataTypeStr": "int16", "OutDataTypeStr": "int32"}, ["int16", "int16"]))
        self.assertEqual([it.split()[0] for it in said], ["ignored"])
        self.assertIn("AccumDataTypeStr", said[0])
        said = findings(around("Gain", {"Gain": "0.1"}, ["int16"]))
        self.assertIn("Write ParamDataTypeStr", said[0])

    def test_number_of_a_gain(self) -> None:
        """An eighth in uint32 is 0 to Simulink."""
        said = findings(around("Gain", {"Gain": "0.125", "ParamDataTypeStr": "Inherit: Same as input"}, ["uint32"]))
        self.assertIn("mdlc takes it with up to 31 bits after the point, Simulink as 0, the nearest of uint32. Write", said[0])

    def test_sums_in_the_type_of_the_first_input(self) -> None:
        """Told, but of two inputs with the output's type, where each sum is the exact one."""
        written = {"AccumDataTypeStr": "Inherit: Same as first input", "OutDataTypeStr": "int16"}
        self.assertEqual(findings(around("Sum", written, ["int16", "int16"])), [])
        for given in ({"OutDataTypeStr": "int32"}, {"Inputs": "+++"}):
            said = findings(around("Sum", {**written, **given}, ["int16"] * len(given.get("Inputs", "++"))))
            self.assertEqual([it.split()[0] for it in said], ["ignored"])
            self.assertIn("AccumDataTypeStr", said[0])

    def test_logical_types_of_a_model_without_booleans(self) -> None:
        """Such a type is `double`; a written `boolean` isn't touched."""
        logical = "Inherit: Logical (see Configuration Parameters: Optimization)"
        for written, flag, words in ((logical, "off", ["refused"]), (logical, "on", []), ("boolean", "off", [])):
            text = around("RelationalOperator", {"OutDataTypeStr": written}, ["int8", "int8"])
            said = findings(text.replace("Model {", f'Model {{\n  Settings {{\n    BooleanDataType "{flag}"\n  }}', 1))
            self.assertEqual([it.split()[0] for it in said], words, said)

    def test_commented_through_with_too_many_inputs(self) -> None:
        said = findings(around("Sum", {"Commented": "through"}, ["int16", "int16"]))
        self.assertTrue(any("2 inputs and 1 outputs" in it for it in said), said)

    def test_wide_and_looped(self) -> None:
        self.assertTrue(any("(F19)" in it for it in findings(around("Product", {}, ["uint32", "uint32"]))))
        blocks = [INPORT, block_text("Sum", "s", {"OutDataTypeStr": "int16"}), OUTPORT]
        lines = [line_text("In1", "1", "s", "1"), line_text("s", "1", "s", "2"), line_text("s", "1", "Out1", "1")]
        self.assertTrue(any("(F23)" in it for it in findings(model_text(blocks, lines))))

    def test_unused_blocks_of_mdlc_stay(self) -> None:
        text = imported("m.mdl", model_text([INPORT, block_text("Ground", "g", {})], []).encode(), Scope()).text
        self.assertNotIsInstance(verdict(text or ""), str)


if __name__ == "__main__":
    unittest.main()
