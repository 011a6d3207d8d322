"""The parts of an SLX file: those of its archive, or of the text package in which later releases save MDL. All sizes are bounded."""

import io
import zipfile
import zlib

from .findings import Refusal

PACKAGE = b"__MWOPC_PACKAGE_BEGIN__"
PART = b"__MWOPC_PART_BEGIN__"
MOST_PARTS = 4096
MOST_BYTES = 16 * 1024 * 1024


def is_archive(data: bytes) -> bool:
    """Whether a file is an archive."""
    return data.startswith(b"PK")


def is_package(data: bytes) -> bool:
    """Whether a file is a text package of parts."""
    return data.startswith(PACKAGE) or b"\n" + PACKAGE in data


def is_wanted(name: str) -> bool:
    """Whether a part can say something of the model: the XML of `simulink/` and of `simulink/systems/`."""
    folder, _, file = name.rpartition("/")
    return file.endswith(".xml") and folder in ("simulink", "simulink/systems")


def archive_parts(data: bytes) -> dict[str, bytes]:
    """The wanted parts of an archive by name; raises a Refusal."""
    try:
        with zipfile.ZipFile(io.BytesIO(data)) as archive:
            return read_archive(archive)
    except (zipfile.BadZipFile, zlib.error, EOFError, OSError, NotImplementedError, ValueError, RuntimeError, OverflowError) as fault:
        raise Refusal("file", f"this is no whole SLX archive ({type(fault).__name__})") from None


def read_archive(archive: zipfile.ZipFile) -> dict[str, bytes]:
    """The wanted parts, read with a bound whatever the archive says of their sizes."""
    entries = archive.infolist()
    if len(entries) > MOST_PARTS:
        raise Refusal("file", f"the archive has {len(entries)} parts, more than {MOST_PARTS}")
    found: dict[str, bytes] = {}
    left = MOST_BYTES
    for entry in entries:
        if not is_wanted(entry.filename):
            continue
        if entry.filename in found:
            raise Refusal(entry.filename, "the archive has this part twice")
        with archive.open(entry) as part:
            content = part.read(left + 1)
        left -= len(content)
        if left < 0:
            raise Refusal(entry.filename, f"the parts of the model have more than {MOST_BYTES} bytes")
        found[entry.filename] = content
    return found


def package_parts(data: bytes) -> dict[str, bytes]:
    """The wanted parts of a text package by name; raises a Refusal."""
    found: dict[str, bytes] = {}
    for piece in data.split(b"\n" + PART)[1:]:
        heading, _, content = piece.partition(b"\n")
        words = heading.decode("latin-1").split()
        name = words[0].removeprefix("/") if words else ""
        if not is_wanted(name) or "BASE64" in words:
            continue
        if name in found:
            raise Refusal(name, "the package has this part twice")
        found[name] = content.strip()
    return found
