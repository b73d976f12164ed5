"""From the bytes of a file to its description: finds the format and calls its reader."""

from __future__ import annotations

import os
from dataclasses import dataclass
from typing import Callable, Dict, Optional

from . import ipxact, reggen, shape, source, svd, table, writer
from .choice import Choice
from .errors import SourceError
from .report import Report

FORMATS = ("ipxact", "svd", "reggen", "table")
MOST_BYTES = {"xml": 32 * 2**20, "reggen": 4 * 2**20, "table": 16 * 2**20}


@dataclass
class Imported:
    """The text of a description and the report of how it came."""

    text: str
    report: Report
    description: shape.Description


def import_file(
    path: str,
    format: Optional[str] = None,
    choice: Optional[Choice] = None,
    options: Optional[shape.Options] = None,
    backdoor: bool = True,
) -> Imported:
    """Imports a file. Raises SourceError where it is refused and OSError where it can't be read."""
    report = Report(path)
    choice = choice or Choice()
    data = _read(path)
    chip = _chip(data, format or _format(data, path), report, choice)
    if choice.blocks_left():
        report.noted(0, "", f"{len(choice.blocks_left()):,} blocks weren't chosen by --block")
    _check_choice(choice)
    description = shape.shape(chip, report, choice, options)
    unmet = choice.unmet()
    if unmet:
        raise SourceError(f"--take `{unmet[0]}`: no register or field that shares its place")
    return Imported(writer.write(description, report, backdoor), report, description)


def _check_choice(choice: Choice) -> None:
    unmet = [one for one in choice.unmet() if one in choice.blocks]
    if unmet:
        known = ", ".join(choice.seen[:40]) + (", .." if len(choice.seen) > 40 else "")
        raise SourceError(f"--block `{unmet[0]}`: the file has the blocks {known or 'none'}")


def _read(path: str) -> bytes:
    most = max(MOST_BYTES.values())
    with open(path, "rb") as file:
        size = os.fstat(file.fileno()).st_size
        data = b"" if size > most else file.read(most + 1)
    if max(size, len(data)) > most:
        raise SourceError(f"more than {most:,} bytes, which is the most that is read")
    if not data.strip():
        raise SourceError("nothing stands in it")
    return data


def _format(data: bytes, path: str) -> str:
    """The format by the file's content, or by its name where that leaves a doubt."""
    head = data[:4096].lstrip(b"\xef\xbb\xbf \t\r\n")
    if head.startswith((b"<", b"\xff\xfe<", b"\xfe\xff\x00<")):
        return "xml"
    if path.lower().endswith((".hjson", ".json")) or head.startswith((b"{", b"//", b"/*")):
        return "reggen"
    return "table"


def _chip(data: bytes, format: str, report: Report, choice: Choice) -> source.Chip:
    group = format if format in MOST_BYTES else "xml"
    if len(data) > MOST_BYTES[group]:
        raise SourceError(
            f"more than {MOST_BYTES[group]:,} bytes, the most that is read of this format"
        )
    readers: Dict[str, Callable[[bytes, Report, Choice], source.Chip]] = {
        "reggen": reggen.read,
        "table": table.read,
    }
    if format in readers:
        return readers[format](data, report, choice)
    return _xml(data, format, report, choice)


def _xml(data: bytes, format: str, report: Report, choice: Choice) -> source.Chip:
    try:
        from . import markup
    except ImportError:
        text = "XML is read by defusedxml, which isn't there: install python3-defusedxml"
        raise SourceError(text) from None
    root = markup.parse(data)
    if format in ("xml", "svd") and root.tag == "device":
        return svd.read(root, report, choice)
    if format in ("xml", "ipxact") and root.tag == "component":
        return ipxact.read(root, report, choice)
    raise SourceError(f"`{root.tag}` is neither an IP-XACT component nor an SVD device", root.line)
