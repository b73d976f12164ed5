"""json LOG..: the logs as JSON, one object a line: each event with its items, and each other line of the log.

Each object has `log` (the file) and `line`, and its `kind`: event, begin and total (the two lines of a sequence), end,
refused, note (what a link says of its peer), item (a word of a woven log before its access's line), or unknown for a line of
another version. Numbers of a device are texts such as "0x1f", since JSON's readers lose
bits above 2^53. The exit status is 1 where some line is unknown or refused, or a log has no last line.
"""

from __future__ import annotations

import argparse
import json
from pathlib import Path
from typing import Any, Dict, Iterator, Optional, Sequence

from ..events import Event, Other, read_log
from .judged import text_of

COUNTS = {
    "total": ("steps", "differences", "bus_errors"),
    "end": ("events", "differences", "bus_errors"),
}


def _other(told: Other) -> Dict[str, Any]:
    counts = dict(zip(COUNTS.get(told.kind, ()), told.counts))
    return {"line": told.line, "kind": told.kind, "text": told.raw, **counts}


def objects(log: Path) -> Iterator[Dict[str, Any]]:
    """Each line of a log that isn't an item, as plain data."""
    lines = text_of(log).split("\n")
    for told in read_log(lines if lines[-1] else lines[:-1]):
        if isinstance(told, Event):
            yield {"log": str(log), "kind": "event", **told.as_dict()}
        else:
            yield {"log": str(log), **_other(told)}


def main(arguments: Optional[Sequence[str]] = None) -> int:
    """The command; its arguments are those of the module's text."""
    parser = argparse.ArgumentParser(
        prog="python -m regrun json",
        description=__doc__,
        formatter_class=argparse.RawDescriptionHelpFormatter,
    )
    parser.add_argument("logs", nargs="+", metavar="LOG")
    whole = True
    for log in parser.parse_args(arguments).logs:
        kind = None
        for told in objects(Path(log)):
            kind = told["kind"]
            whole = whole and kind not in ("unknown", "refused")
            print(json.dumps(told))
        whole = whole and kind == "end"
    return 0 if whole else 1
