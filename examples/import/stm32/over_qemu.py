"""Runs a script over the devices of QEMU's netduino2, and compares what differs with what is known.

over_qemu.py DESCRIPTION SCRIPT LOG KNOWN [corrected]: with `corrected`, what the corrections leave is known.
Ends with 0 where exactly the known fields differ, each as often as it is known to, each sequence made steps, and nothing failed
on the bus.
"""

from __future__ import annotations

import re
import sys
from collections import Counter
from pathlib import Path
from typing import Counter as Counted
from typing import List, Tuple

import regrun
from regrun.targets import Qemu

Difference = Tuple[str, str, str]

_BEGIN = re.compile(r"seq (\S+) \S+: begin")
_DIFFER = re.compile(r"check (\S+) @\S+: .* differ (.*)")
_END = re.compile(r"seq .*: (\d+) steps, (\d+) differences, (\d+) bus errors")


def perform(description: str, script: str, log: str) -> str:
    """The log of a script over the machine; it is in a file, too."""
    lines = Path(script).read_text(encoding="utf-8").splitlines()
    with regrun.Session(
        description, target=Qemu("netduino2"), log=log, on_error="return"
    ) as session:
        for line in lines:
            session.do(line)
    return Path(log).read_text(encoding="utf-8")


def differences(log: str) -> Counted[Difference]:
    """How often each field differed in each sequence."""
    found: Counted[Difference] = Counter()
    sequence = ""
    for line in log.splitlines():
        begin = _BEGIN.fullmatch(line)
        differ = _DIFFER.fullmatch(line)
        if begin:
            sequence = begin[1]
        elif differ:
            found.update((sequence, differ[1], field) for field in differ[2].split(" "))
    return found


def known(path: str, corrected: bool) -> Counted[Difference]:
    """What is known to differ."""
    found: Counted[Difference] = Counter()
    for line in Path(path).read_text(encoding="utf-8").splitlines():
        words = line.split()
        if words and not line.startswith("#") and (words[5] == "yes" or not corrected):
            found[words[0], words[1], words[2]] = int(words[3])
    return found


def main(words: List[str]) -> int:
    """The status of the comparison."""
    description, script, log, table, *rest = words
    text = perform(description, script, log)
    ends = [_END.fullmatch(line) for line in text.splitlines()]
    steps, errors = ([int(end[at]) for end in ends if end] for at in (1, 3))
    found, wanted = differences(text), known(table, rest == ["corrected"])
    print(f"{sum(steps)} steps, {sum(found.values())} differences, {sum(errors)} bus errors")
    for one in sorted(found.keys() | wanted.keys()):
        if found[one] != wanted[one]:
            print(f"{' '.join(one)}: {found[one]} differences, and {wanted[one]} are known")
    return int(found != wanted or any(errors) or not steps or not all(steps))


if __name__ == "__main__":
    sys.exit(main(sys.argv[1:]))
