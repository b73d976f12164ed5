"""The report of an import: what came, what was changed, what was left out, and why."""

from __future__ import annotations

from dataclasses import dataclass
from typing import Dict, List, Tuple

CHANGED = "changed"
LEFT_OUT = "left out"
NOTED = "noted"


@dataclass(frozen=True)
class Entry:
    """One line of the report; `line` is that of the file, or 0."""

    kind: str
    line: int
    where: str
    text: str


class Report:
    """Gathers the entries of one import."""

    def __init__(self, file: str) -> None:
        self.file = file
        self.entries: List[Entry] = []
        self.counts: Dict[str, int] = {}

    def changed(self, line: int, where: str, text: str) -> None:
        """Something stands in the description in another form than in the file."""
        self.entries.append(Entry(CHANGED, line, where, text))

    def left_out(self, line: int, where: str, text: str) -> None:
        """Something of the file isn't in the description."""
        self.entries.append(Entry(LEFT_OUT, line, where, text))

    def noted(self, line: int, where: str, text: str) -> None:
        """Something that the user should know, though nothing was lost."""
        self.entries.append(Entry(NOTED, line, where, text))

    def number(self, kind: str) -> int:
        """How many entries of a kind there are."""
        return sum(entry.kind == kind for entry in self.entries)

    def lines(self) -> List[str]:
        """The report as text: the entries by line of the file, and a last line with the counts."""
        alike: Dict[Tuple[str, int, str], List[Entry]] = {}
        for at, entry in enumerate(self.entries):
            key = (entry.kind, entry.line or -1 - at, entry.text)
            alike.setdefault(key, []).append(entry)
        groups = sorted(alike.values(), key=lambda group: group[0].line)
        result = [self._line(group[0], len(group) - 1) for group in groups]
        came = ", ".join(_counted(self.counts.get(what, 0), what) for what in _COUNTED)
        ends = ", ".join(f"{self.number(kind)} {kind}" for kind in (CHANGED, LEFT_OUT, NOTED))
        result.append(f"{self.file}: {came}; {ends}")
        return result

    def _line(self, entry: Entry, more: int) -> str:
        place = f"{self.file}:{entry.line}" if entry.line else self.file
        where = f"{one_line(entry.where)}: " if entry.where else ""
        tail = f" (and {more:,} more of this line)" if more else ""
        return f"{place}: {entry.kind}: {where}{one_line(entry.text)}{tail}"


_COUNTED = ("blocks", "registers", "fields", "memories")
_ONE = {"blocks": "block", "registers": "register", "fields": "field", "memories": "memory"}


def _counted(number: int, what: str) -> str:
    return f"{number} {_ONE[what] if number == 1 else what}"


def one_line(text: str, most: int = 1000) -> str:
    """A text of the file as one printable line of at most `most` characters."""
    words = " ".join(text[: 4 * most].split())
    printable = "".join(letter for letter in words if letter.isprintable())
    return printable if len(printable) <= most else printable[: most - 3] + " .."
