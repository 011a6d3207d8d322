"""Ten models and the forms that real files have, each imported or explained as a control engineer would expect."""

import unittest

from .cases import Case, all_cases, differing
from .judging import DATA, lines_of, trace_of, verdict

from mdlc_import.importing import Outcome, imported
from mdlc_import.values import Scope

EXAMPLES = DATA.parents[2] / "examples"
REFUSALS = EXAMPLES / "refusals"


def outcome_of(name: str, text: str) -> Outcome:
    """What is said of a text, and what is written."""
    return imported(name, text.encode("latin-1"), Scope())


class CaseTest(unittest.TestCase):
    """Each case by its own file."""

    def test_models(self) -> None:
        """The ten models are written so that they give the same numbers."""
        paths = sorted((DATA / "models").glob("*.mdl"))
        self.assertEqual(len(paths), 10)
        for path in paths:
            with self.subTest(path.stem):
                text = path.read_bytes().decode("latin-1")
                written = outcome_of(path.name, text).text or ""
                trace = trace_of(verdict(text), 7, 50)
                self.assertEqual(lines_of(written, trace), lines_of(text, trace))

    def test_whole_texts(self) -> None:
        """Two of the models, and what is written of them, line by line."""
        for path in sorted(DATA.glob("*.plain")):
            model = (DATA / "models" / f"{path.stem}.mdl").read_bytes().decode("latin-1")
            self.assertEqual(outcome_of("m.mdl", model).text, path.read_text("latin-1"))

    def test_gallery(self) -> None:
        """The models of the gallery are written so that they give the same numbers."""
        paths = sorted(EXAMPLES.glob("*/model.mdl"))
        self.assertTrue(paths)
        for path in paths:
            text = path.read_bytes().decode("latin-1")
            trace = trace_of(verdict(text), 11, 40)
            self.assertEqual(lines_of(outcome_of(path.name, text).text or "", trace), lines_of(text, trace), path)

    def test_findings_of_models(self) -> None:
        """Of the ten models two have something that Simulink may take otherwise."""
        expected = {"movavg": ["line 456"], "slew": ["line 708"]}
        for path in sorted((DATA / "models").glob("*.mdl")):
            found = imported(path.name, path.read_bytes(), Scope()).findings
            self.assertEqual([it.place for it in found], expected.get(path.stem, []), path.stem)

    def test_cases(self) -> None:
        """The findings and the lines of each case are those of its file, and no others."""
        cases = all_cases()
        self.assertEqual(len(cases), 87)
        models = {it.stem: outcome_of(it.name, it.read_bytes().decode("latin-1")) for it in (DATA / "models").glob("*.mdl")}
        for case in cases:
            with self.subTest(case.name):
                self.one_case(case, models[case.model])

    def one_case(self, case: Case, base: Outcome) -> None:
        """One case, beside its model as it is."""
        outcome = outcome_of(f"{case.name}.mdl", case.text)
        known = {it.text() for it in base.findings}
        said = [it.text() for it in outcome.findings if it.text() not in known]
        self.assertEqual(len(said), len(case.findings), said)
        for text, (head, phrase) in zip(said, case.findings):
            self.assertTrue(text.startswith(f"{head}: "), (text, head))
            self.assertIn(phrase, text)
        self.assertEqual(outcome.text is not None, case.is_taken, said)
        if outcome.text is not None and base.text is not None:
            self.assertEqual(differing(base.text, outcome.text), case.lines)
            self.assertNotIsInstance(verdict(outcome.text), str)
            self.same_numbers(case, outcome.text, any(it.startswith("rewritten") for it in said))

    def same_numbers(self, case: Case, written: str, is_rewritten: bool) -> None:
        """Where nothing is rewritten, mdlc gives the same of the file as it is."""
        if not is_rewritten:
            trace = trace_of(verdict(case.text), 9, 25)
            self.assertEqual(lines_of(written, trace), lines_of(case.text, trace))


class RefusalTest(unittest.TestCase):
    """The least examples of mdlc's refusals."""

    def test_examples(self) -> None:
        """What mdlc refuses is told with the number of its refusal, or rewritten so that mdlc takes it."""
        for path in sorted(REFUSALS.glob("F*.mdl")):
            with self.subTest(path.stem):
                text = path.read_bytes().decode("latin-1")
                outcome = outcome_of(path.name, text)
                self.assertTrue(outcome.findings)
                if outcome.text is not None:
                    self.assertNotIsInstance(verdict(outcome.text), str)
                else:
                    number = f"(F{int(path.stem[1:3])})"
                    is_told = any(number in it.text() for it in outcome.findings)
                    self.assertTrue(is_told or path.stem == "F02-package-of-parts", [it.text() for it in outcome.findings])


if __name__ == "__main__":
    unittest.main()
