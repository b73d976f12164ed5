"""The log: events with their bus items, as the program writes them, and a reader of whole logs."""

from __future__ import annotations

import re
from typing import Any, Dict, Iterator, List, NamedTuple, Optional, Sequence, Tuple, Union

#: An operation's line: the command, its operands, and one of the results that the guide lists.
EVENT = re.compile(
    r"([a-z-]+) ([^:]*): (?:"
    r"ok(?: (?:sent )?(0x[0-9a-f]+)| none)?(?: desired (0x[0-9a-f]+))?(?: mirror (0x[0-9a-f]+))?"
    r"(?P<differ> differ(?: \w+)*)?"
    r"|refused (?P<reason>.+)"
    r"|bus error at word (?P<word>\d+)(?: mirror (?P<kept>0x[0-9a-f]+))?)$"
)
ITEM = re.compile(r"  (\w+) ([wr]) (0x[0-9a-f]+) (0x[0-9a-f]+) ([01]+) #(\d+) (ok|error)$")
BEGIN = re.compile(r"seq ([a-z-]+) (\S+): begin$")
TOTAL = re.compile(r"seq ([a-z-]+) (\S+): (\d+) steps, (\d+) differences, (\d+) bus errors$")
END = re.compile(r"end: (\d+) events, (\d+) differences, (\d+) bus errors$")
NOTE = re.compile(r"# (.*)$")
REFUSED = re.compile(
    r"refused (session|line \d+|description(?: [a-z]+ \d+(?: field \d+)?)?): (.+)$"
)

CHECKS = frozenset(["check", "back-check"])


class Item(NamedTuple):
    """One word of an access on the bus."""

    map: str
    direction: str
    address: int
    word: int
    lanes: str
    tag: int
    answer: str

    @property
    def failed(self) -> bool:
        """Whether the bus answered an error."""
        return self.answer != "ok"

    @classmethod
    def parse(cls, line: str) -> "Item":
        """The item of a line of the log. Raises ValueError where the line is none."""
        found = ITEM.match(line)
        if not found:
            raise ValueError(f"no item of a log: {line!r}")
        root, direction, address, word, lanes, tag, answer = found.groups()
        return cls(root, direction, int(address, 16), int(word, 16), lanes, int(tag), answer)

    def __str__(self) -> str:
        digits = 2 * len(self.lanes)
        return (
            f"  {self.map} {self.direction} {self.address:#x} 0x{self.word:0{digits}x} "
            f"{self.lanes} #{self.tag} {self.answer}"
        )


class Event:
    """One operation and what came of it.

    line       its line in the log, from 1
    text       the operation in its one spelling, itself a line of a script
    operation  the command; item: its first operand; map: the map that was used, without `@`
    result     "ok", "refused" or "bus error"; reason: why it is refused; failed_word: the word that failed, from 0
    value      the value read, or the word that an update sent
    mirrored   the register's mirrored value afterwards; desired: its desired value, where the log tells it
    expected   what a check compared with: the mirrored value before it, or a memory's given value
    differ     names of the differing fields, in their order; differs: whether anything does
    items      the bus items
    """

    __slots__ = (
        "line",
        "raw",
        "text",
        "operation",
        "item",
        "map",
        "result",
        "reason",
        "failed_word",
        "value",
        "mirrored",
        "desired",
        "expected",
        "differ",
        "differs",
        "_items",
    )

    def __init__(self, line: int, raw: str, items: Sequence[str] = ()) -> None:
        found = EVENT.match(raw)
        if not found:
            raise ValueError(f"no operation of a log: {raw!r}")
        operation, operands, value, desired, mirrored, differ, reason, word, kept = found.groups()
        self.line = line
        self.raw = raw
        self.text = f"{operation} {operands}"
        self.operation: str = operation
        item, _, rest = operands.partition(" ")
        self.item: str = item
        self.map: Optional[str] = rest[rest.rindex("@") + 1 :] if "@" in rest else None
        self.reason: Optional[str] = reason
        self.failed_word: Optional[int] = None
        if reason is not None:
            self.result = "refused"
        elif word is not None:
            self.result = "bus error"
            self.failed_word = int(word)
            mirrored = kept
        else:
            self.result = "ok"
        self.value: Optional[int] = int(value, 16) if value else None
        self.mirrored: Optional[int] = int(mirrored, 16) if mirrored else None
        self.desired: Optional[int] = int(desired, 16) if desired else None
        self.differs = differ is not None
        self.differ: Tuple[str, ...] = tuple(differ.split()[1:]) if differ else ()
        self.expected: Optional[int] = None
        if operation == "mem-check":
            self.expected = int(rest.split(" ")[1], 16)
        self._items: Union[List[str], List[Item]] = list(items)

    @property
    def operands(self) -> Tuple[str, ...]:
        """The operands as the log spells them, without the map."""
        return tuple(it for it in self.text.split(" ")[1:] if not it.startswith("@"))

    @property
    def location(self) -> Optional[int]:
        """The location of a memory's operation."""
        return int(self.operands[1], 16) if self.operation.startswith("mem-") else None

    @property
    def items(self) -> List[Item]:
        """The bus items, in the order in which they were sent."""
        if self._items and isinstance(self._items[0], str):
            self._items = [Item.parse(it) for it in self._items]  # type: ignore[arg-type]
        return self._items  # type: ignore[return-value]

    @property
    def ok(self) -> bool:
        """Whether it was done, and nothing differed."""
        return self.result == "ok" and not self.differs

    @property
    def differences(self) -> int:
        """How many differences the log counts for it."""
        return max(1, len(self.differ)) if self.differs else 0

    @property
    def events(self) -> "List[Event]":
        """The event itself, as a list: what sequences and bursts have."""
        return [self]

    @property
    def log(self) -> str:
        """Its lines in the log."""
        return "\n".join([self.raw, *map(str, self._items)])

    def __int__(self) -> int:
        if self.value is None:
            raise ValueError(f"no value was read: {self.raw}")
        return self.value

    __index__ = __int__

    def __repr__(self) -> str:
        return f"<Event {self.line}: {self.raw}>"

    def as_dict(self) -> Dict[str, Any]:
        """The event as plain data, numbers as hexadecimal texts, for JSON."""
        told: Dict[str, Any] = {"line": self.line, "operation": self.operation, "item": self.item}
        if self.map is not None:
            told["map"] = self.map
        told.update(text=self.text, result=self.result)
        for key in ("reason", "failed_word"):
            if getattr(self, key) is not None:
                told[key] = getattr(self, key)
        for key in ("value", "mirrored", "desired", "expected"):
            if getattr(self, key) is not None:
                told[key] = hex(getattr(self, key))
        told["differs"] = self.differs
        if self.differ:
            told["differ"] = list(self.differ)
        told["items"] = [
            {**it._asdict(), "address": hex(it.address), "word": hex(it.word)} for it in self.items
        ]
        return told


class SequenceRun(NamedTuple):
    """A sequence that ran: its own counts, and the events of its steps."""

    line: int
    name: str
    block: str
    steps: int
    differences: int
    bus_errors: int
    events: List[Event]

    @property
    def text(self) -> str:
        """The sequence as a line of a script."""
        return f"seq {self.name} {self.block}"

    @property
    def ok(self) -> bool:
        """Whether it made steps, and none was refused, differed or failed."""
        counted = self.steps > 0 and self.differences == 0 and self.bus_errors == 0
        return counted and all(it.ok for it in self.events)


class Burst(NamedTuple):
    """A burst: the events of its locations, or the one of its refusal."""

    line: int
    text: str
    events: List[Event]

    @property
    def ok(self) -> bool:
        """Whether each location was done."""
        return all(it.ok for it in self.events)

    @property
    def values(self) -> List[int]:
        """The values that were read, up to the first bus error."""
        return [it.value for it in self.events if it.value is not None]


class Other(NamedTuple):
    """A line of a log that is no operation and no item.

    kind  "begin", "total" (the two lines of a sequence), "end", "refused", "item" (one that stands behind no operation, as
          in a woven log), "note" (a line behind `#`, in which a link tells what its peer did) or "unknown"
    """

    line: int
    kind: str
    raw: str
    counts: Tuple[int, ...] = ()


_OTHERS = (
    ("begin", BEGIN),
    ("total", TOTAL),
    ("end", END),
    ("refused", REFUSED),
    ("item", ITEM),
    ("note", NOTE),
)


def other(number: int, raw: str) -> Other:
    """What a line is that is no operation: of a sequence, the last one, a refusal, a note, or unknown."""
    for kind, pattern in _OTHERS:
        found = pattern.match(raw)
        if found:
            counts = {"end": found.groups(), "total": found.groups()[2:]}.get(kind, ())
            return Other(number, kind, raw, tuple(map(int, counts)))
    return Other(number, "unknown", raw)


def read_log(lines: Sequence[str], first: int = 1) -> Iterator[Union[Event, Other]]:
    """Each operation of a log with its items, and each other line, in order.

    `first` is the number of the first line. A line of no known form is an Other of the kind "unknown".
    """
    at = 0
    while at < len(lines):
        raw, start = lines[at], at
        at += 1
        if not EVENT.match(raw):
            yield other(first + start, raw)
            continue
        while at < len(lines) and ITEM.match(lines[at]):
            at += 1
        yield Event(first + start, raw, lines[start + 1 : at])
