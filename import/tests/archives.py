"""SLX files from their parts, which are kept as text packages."""

import io
import zipfile
from pathlib import Path

BEGIN = "__MWOPC_PART_BEGIN__ "
OTHERS = {
    "[Content_Types].xml": b'<?xml version="1.0" encoding="UTF-8" standalone="yes"?>\n<Types/>\n',
    "metadata/thumbnail.png": b"\x89PNG\r\n\x1a\n",
}


def parts_of(path: Path) -> dict[str, bytes]:
    """The parts of a package by name."""
    pieces = path.read_text("utf-8").split(BEGIN)[1:]
    return {name.removeprefix("/"): text.encode("utf-8") for name, _, text in (it.partition("\n") for it in pieces)}


def archive_of(parts: dict[str, bytes], method: int = zipfile.ZIP_DEFLATED) -> bytes:
    """An SLX file of these parts, with those that each one has besides."""
    buffer = io.BytesIO()
    with zipfile.ZipFile(buffer, "w", method) as archive:
        for name, content in {**OTHERS, **parts}.items():
            archive.writestr(zipfile.ZipInfo(name, (2011, 3, 14, 10, 21, 6)), content, method)
    return buffer.getvalue()
