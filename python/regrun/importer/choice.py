"""What of a file is to be imported: `--block`, `--address`, `--take`."""

from __future__ import annotations

from fnmatch import fnmatchcase
from typing import Dict, List, Sequence, Tuple

from . import numbers
from .errors import SourceError

MOST_ITEMS = 50_000
MOST_FIELDS = 100_000


def matches(path: str, pattern: str) -> bool:
    """Whether a path is like a pattern, in which `*` and `?` alone stand for other characters."""
    return fnmatchcase(path, pattern.replace("[", "[[]"))


class Choice:
    """The user's choice, and what of it has met something in the file."""

    def __init__(
        self,
        blocks: Sequence[str] = (),
        addresses: Sequence[Tuple[int, int]] = (),
        takes: Sequence[str] = (),
    ) -> None:
        self.blocks = list(blocks)
        self.addresses = list(addresses)
        self.takes = list(takes)
        self.seen: List[str] = []
        self._left: List[str] = []
        self._met: Dict[str, bool] = {}
        self._items = 0
        self._fields = 0

    def block(self, *names: str) -> bool:
        """Whether a block of the file that goes by these names is wanted."""
        self.seen.append(names[0])
        if not self.blocks:
            return True
        meets = [one for one in self.blocks if any(matches(name, one) for name in names)]
        self._met.update((one, True) for one in meets)
        if not meets:
            self._left.append(names[0])
        return bool(meets)

    def address(self, first: int, last: int) -> bool:
        """Whether an item of these addresses is wanted, both ends included."""
        if not self.addresses:
            return True
        return any(start <= first and last <= end for start, end in self.addresses)

    def take(self, path: str) -> bool:
        """Whether a register or field is to come before others at its place."""
        meets = [one for one in self.takes if matches(path, one)]
        self._met.update((one, True) for one in meets)
        return bool(meets)

    def count_item(self, line: int) -> None:
        """Counts a register, memory or group that a file makes, and holds the limit."""
        self._items += 1
        if self._items > MOST_ITEMS:
            raise SourceError(f"more than {MOST_ITEMS:,} registers: choose by --block", line)

    def count_field(self, line: int) -> None:
        """Counts a field that a file makes, and holds the limit."""
        self._fields += 1
        if self._fields > MOST_FIELDS:
            raise SourceError(f"more than {MOST_FIELDS:,} fields: choose by --block", line)

    def unmet(self) -> List[str]:
        """The patterns that have met nothing."""
        return [one for one in [*self.blocks, *self.takes] if one not in self._met]

    def blocks_left(self) -> List[str]:
        """The blocks of the file that weren't wanted."""
        return self._left


def address_range(text: str) -> Tuple[int, int]:
    """`A` or `A-B` or `A..B` as its two ends, both included. Raises numbers.NumberError."""
    first, sign, last = text.partition(".." if ".." in text else "-")
    start = numbers.table(first)
    end = numbers.table(last) if sign else start
    if end < start:
        raise numbers.NumberError(f"`{text}` ends before it begins")
    return start, end
