"""SLX files in the forms of several releases come to the same plain text as their MDL twins."""

import importlib.util
import unittest
import zipfile

from .archives import archive_of, parts_of
from .judging import DATA, lines_of, trace_of, verdict

from mdlc_import.importing import imported
from mdlc_import.values import Scope

FOLDER = DATA / "slx"


def plain(name: str, data: bytes) -> str:
    """The plain text of a file."""
    outcome = imported(name, data, Scope())
    if outcome.text is None:
        raise AssertionError("\n".join(it.text() for it in outcome.findings))
    return outcome.text


@unittest.skipUnless(importlib.util.find_spec("defusedxml"), "no defusedxml here, so SLX isn't tried")
class TwinTest(unittest.TestCase):
    """Each package of parts with its MDL twin."""

    def test_twins(self) -> None:
        packages = sorted(FOLDER.glob("*.parts"))
        self.assertEqual(len(packages), 12)
        for package in packages:
            with self.subTest(package.stem):
                twin = plain("twin.mdl", package.with_suffix(".mdl").read_bytes())
                for method in (zipfile.ZIP_DEFLATED, zipfile.ZIP_STORED):
                    self.assertEqual(plain(f"{package.stem}.slx", archive_of(parts_of(package), method)), twin)
                self.assertEqual(plain(f"{package.stem}.mdl", package.read_bytes()), twin)
                self.assertNotIsInstance(verdict(twin), str)

    def test_twins_of_plain_text(self) -> None:
        """Where the twin has blocks of mdlc alone, mdlc gives the same of it and of what is written."""
        for path in sorted(FOLDER.glob("*.mdl")):
            text = path.read_bytes().decode("latin-1")
            if not isinstance(verdict(text), str):
                trace = trace_of(verdict(text), 5, 200)
                self.assertEqual(lines_of(plain(path.name, path.read_bytes()), trace), lines_of(text, trace), path.stem)


if __name__ == "__main__":
    unittest.main()
