"""missed SESSION: of each single flaw that the script misses, whether the log shows it.

`regrun-grade missed` says which flaws a script misses. A missed flaw is seen, where some event of the session's log reads
otherwise than without the flaw, and no check names it: a check at that place may find it. Or it is never shown: the log is
the same bytes, so the script has to write, read or reset something that it doesn't yet. What no script finds is neither; it is
what `regrun-grade hidden` writes.

Each missed flaw is written as a row of a description, behind a comment that says which of the two it is, with the first line of
the log that shows it, counted from 1. The last line has the counts. For each missed flaw the session is run once.

The status is that of `regrun-grade`, where this has refused the session, and else 0.
"""

from __future__ import annotations

import argparse
import os
import subprocess
import sys
from concurrent.futures import ThreadPoolExecutor
from pathlib import Path
from typing import List, NamedTuple, Optional, Sequence, Tuple

from ..errors import ProgramNotFound
from ..events import Event, read_log
from ..program import find


# Sessions and logs are bytes: each is one character here, and goes back as it came.
BYTES = "latin-1"


class Seen(NamedTuple):
    """The first event of a log that a flaw changes, and what it is without the flaw."""

    line: int
    text: str
    without: str


def parted(session: str) -> Tuple[str, str]:
    """The description of a session, and its script with the separator. Raises ValueError where it has no separator."""
    lines = session.splitlines(keepends=True)
    for at, line in enumerate(lines):
        if line.rstrip("\r\n") == "---":
            return "".join(lines[:at]), "".join(lines[at:])
    raise ValueError("no separator")


def rows_of(text: str) -> List[str]:
    """The rows that `regrun-grade missed` wrote, each with its header."""
    return ["[[flaw]]" + row for row in text.split("[[flaw]]")[1:]]


def first_change(sound: Sequence[str], flawed: Sequence[str]) -> Optional[Seen]:
    """The first event of the second log that isn't that of the first one, with its items; None where the logs are the same."""
    pairs = zip(read_log(sound), read_log(flawed))
    for without, told in pairs:
        if isinstance(told, Event) and isinstance(without, Event) and told.log != without.log:
            return Seen(told.line, _differing(told, without), _differing(without, told))
    return None


def _differing(event: Event, other: Event) -> str:
    """The first line of an event in the log that the other one hasn't."""
    lines, others = event.log.split("\n"), other.log.split("\n")
    return next((one for one, two in zip(lines, others) if one != two), lines[0]).strip()


def _run(command: Sequence[str], session: str) -> List[str]:
    done = subprocess.run(
        [*command, "run"], input=session.encode(BYTES), capture_output=True, check=False
    )
    return done.stdout.decode(BYTES).splitlines()


def judged(
    command: Sequence[str], session: str, rows: Sequence[str], jobs: int
) -> List[Optional[Seen]]:
    """What the log shows of each flaw, in the order of their rows; None of one that it never shows."""
    description, script = parted(session)
    sound = _run(command, session)

    def one(row: str) -> Optional[Seen]:
        return first_change(sound, _run(command, f"{description}\n{row}{script}"))

    with ThreadPoolExecutor(max(1, jobs)) as pool:
        return list(pool.map(one, rows))


def _comment(seen: Optional[Seen]) -> str:
    if seen is None:
        return "# never shown"
    return f"# seen in line {seen.line} of the log, and not checked: {seen.text}; without the flaw: {seen.without}"


def main(arguments: Optional[Sequence[str]] = None) -> int:
    """The command; its arguments are those of the module's text."""
    parser = argparse.ArgumentParser(
        prog="python -m regrun missed",
        description=__doc__,
        formatter_class=argparse.RawDescriptionHelpFormatter,
    )
    parser.add_argument("session", metavar="SESSION", type=Path)
    parser.add_argument(
        "--share", metavar="K/N", help="the share of the flaws that is tried, as of regrun-grade"
    )
    parser.add_argument("--program", help="the program regrun")
    parser.add_argument("--grade", help="the program regrun-grade")
    parser.add_argument(
        "--jobs", type=int, default=os.cpu_count() or 1, help="how many sessions run side by side"
    )
    asked = parser.parse_args(arguments)
    session = asked.session.read_bytes().decode(BYTES)
    try:
        command, grader = find("regrun", asked.program), find("regrun-grade", asked.grade)
    except ProgramNotFound as error:
        print(f"regrun missed: {error}", file=sys.stderr)
        return 2
    words = [*grader, "missed", *([asked.share] if asked.share else [])]
    graded = subprocess.run(words, input=session.encode(BYTES), stdout=subprocess.PIPE, check=False)
    text = graded.stdout.decode(BYTES)
    if graded.returncode:
        sys.stdout.write(text)
        return graded.returncode
    rows = rows_of(text)
    found = judged(command, session, rows, asked.jobs)
    for row, seen in zip(rows, found):
        print(_comment(seen))
        sys.stdout.write(row)
    shown = sum(seen is not None for seen in found)
    print(f"# {len(rows)} missed: {shown} seen and not checked, {len(rows) - shown} never shown")
    return 0
