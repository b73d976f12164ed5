"""python -m regrun junit|page|json|missed|import ..: reports of logs and plans, and descriptions from other formats.

junit   JUnit XML and a page of failing checks, of logs of the command
page    a page of the registers of sessions, with the differing bits marked
json    logs as JSON, one object a line
missed  of each flaw that a script misses, whether its log shows it
import  a description from IP-XACT, CMSIS-SVD, reggen or a table

`python -m regrun WHAT --help` says more of each, and `python -m regrun --version` the version.
"""

from __future__ import annotations

import importlib
import os
import sys
from typing import List, Optional

from . import __version__

MODULES = {
    "junit": "regrun.reports.junit",
    "page": "regrun.reports.page",
    "json": "regrun.reports.lines",
    "missed": "regrun.reports.missed",
    "import": "regrun.importer.cli",
}


def main(arguments: Optional[List[str]] = None) -> int:
    """The command: its exit status."""
    words = sys.argv[1:] if arguments is None else arguments
    if words == ["--version"]:
        print(f"regrun {__version__}")
        return 0
    if not words or words[0] not in MODULES:
        asked = bool(words) and words[0] in ("-h", "--help")
        print((__doc__ or "").strip(), file=sys.stdout if asked else sys.stderr)
        return 0 if asked else 2
    try:
        module = importlib.import_module(MODULES[words[0]])
    except ModuleNotFoundError as error:
        print(f"regrun {words[0]}: the Python module {error.name} isn't installed", file=sys.stderr)
        return 2
    try:
        return int(module.main(words[1:]))
    except BrokenPipeError:
        os.dup2(os.open(os.devnull, os.O_WRONLY), sys.stdout.fileno())
        return 1
    except OSError as error:
        print(f"regrun {words[0]}: {error}", file=sys.stderr)
        return 2


if __name__ == "__main__":
    sys.exit(main())
