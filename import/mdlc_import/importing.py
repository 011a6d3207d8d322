"""From the bytes of a file to a model of mdlc's blocks, with all that is to be said of it."""

import re
from dataclasses import dataclass
from pathlib import PurePath

from . import from_mdl, from_slx, mdl_text, parts
from .draw import Artist
from .findings import Finding, Refusal, Word
from .graph import rows_of
from .judge import Judge
from .model import Model
from .parameters import settle_parameters
from .routing import settle_routing
from .signal_types import types_of
from .values import Scope
from .wide import WideJudge
from .write import model_text

BYTE_ORDER_MARK = b"\xef\xbb\xbf"
NOT_TEXT = "mdlc reads MDL text alone (F2)."


@dataclass(frozen=True)
class Outcome:
    """What was found, and the plain text where nothing of it is refused."""

    findings: tuple[Finding, ...]
    text: str | None = None


def stem_of(name: str) -> str:
    """The name of a model that only its file has."""
    return PurePath(name).stem or "model"


def read_model(name: str, data: bytes) -> Model:
    """The model of a file in any of the forms; raises a Refusal, or MissingLibrary."""
    if parts.is_archive(data):
        model = from_slx.model_of(parts.archive_parts(data), stem_of(name))
        return told(model, "this is an SLX archive:")
    if len(data) > mdl_text.MOST_BYTES:
        raise Refusal("file", f"more than {mdl_text.MOST_BYTES} bytes (F1)")
    if parts.is_package(data):
        model = from_slx.model_of(parts.package_parts(data), stem_of(name))
        return told(model, "this is a text package of parts:")
    if data.lstrip()[:5] == b"<?xml":
        raise Refusal("file", "this is XML and no MDL text; give the whole SLX archive")
    model = from_mdl.model_of(mdl_text.read_text(data.removeprefix(BYTE_ORDER_MARK).decode("latin-1")))
    return told(model, "it begins with a byte-order mark:") if data.startswith(BYTE_ORDER_MARK) else model


def told(model: Model, says: str) -> Model:
    """The model with a finding about the form of its file."""
    model.findings.insert(0, Finding(Word.REWRITTEN, "file", model.name, "", f"{says} {NOT_TEXT}", "mdlc-import writes plain MDL."))
    return model


def imported(name: str, data: bytes, scope: Scope) -> Outcome:
    """All that is said of a file, and the plain model where nothing is refused. Raises MissingLibrary alone."""
    try:
        model = read_model(name, data)
    except Refusal as fault:
        return Outcome((Finding(Word.REFUSED, fault.place, name, "", f"{fault.says}."),))
    settle(model, scope)
    findings = tuple(sorted(dict.fromkeys(model.findings), key=place_order))
    if model.is_refused():
        return Outcome(findings)
    text = model_text(model)
    if len(text) > mdl_text.MOST_BYTES:
        says = f"what would be written has more than {mdl_text.MOST_BYTES} bytes (F1)."
        return Outcome((*findings, Finding(Word.REFUSED, "file", name, "", says)))
    return Outcome(findings, text)


def place_order(finding: Finding) -> tuple[int, ...]:
    """Where a finding stands among others: by the numbers in its place, those of the file as such first."""
    return tuple(int(it) for it in re.findall(r"\d{1,9}", finding.place))


def settle(model: Model, scope: Scope) -> None:
    """Rewrites a model step by step; each says what it finds."""
    reasons = settle_routing(model)
    settle_parameters(model, scope, reasons)
    rows = rows_of(model)
    types = types_of(rows)
    Judge(model, rows, types).judge()
    Artist(model, rows, types).draw()
    before = len(model.findings)
    rows = rows_of(model)
    del model.findings[before:]
    WideJudge(model, rows, types_of(rows)).judge()
