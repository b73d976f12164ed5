"""What a log and its exit status come to: passed, failing, or no whole log at all."""

from __future__ import annotations

import html
import re
from fnmatch import fnmatchcase
from pathlib import Path
from typing import Callable, Dict, List, NamedTuple, Optional, Sequence, Tuple, TypeVar

from ..errors import STATUSES
from ..events import Event, Other, read_log

Number = TypeVar("Number", int, float)

#: What a session may have without failing, where it is allowed by name.
KINDS = {
    "refused": "refused operations",
    "no-steps": "sequences of no step",
    "empty": "no operation at all",
}


#: Failures that are neither differences nor bus errors.
BESIDE = ("(refused)", "(no step)", "(link)")


class Failure(NamedTuple):
    """A difference, a bus error, a refused operation, a sequence of no step, or what a link told of its peer."""

    line: int
    item: str
    field: str
    text: str


class Result(NamedTuple):
    """What a session came to. It passed where it has neither failures nor an error."""

    name: str
    failures: List[Failure]
    error: Optional[str]
    seconds: float
    events: int

    @property
    def passed(self) -> bool:
        """Whether nothing is to be said against it."""
        return not self.failures and not self.error


class Allowed:
    """What is allowed, as `KIND:NAME`; NAME is a session's name or a pattern with `*`. Raises ValueError."""

    def __init__(self, words: Sequence[str] = ()) -> None:
        self.names: Dict[str, List[str]] = {kind: [] for kind in KINDS}
        for word in words:
            kind, colon, name = word.partition(":")
            if not colon or kind not in KINDS or not name:
                raise ValueError(
                    f"--allow takes KIND:NAME, with a kind of {', '.join(KINDS)}, and not {word!r}"
                )
            self.names[kind].append(name)

    def has(self, kind: str, name: str) -> bool:
        """Whether a session may have it."""
        return any(fnmatchcase(name, it) for it in self.names[kind])


def failures_of(event: Event) -> List[Failure]:
    """What an event has against the device: each differing field or location, or its bus error."""
    if event.result == "bus error":
        return [Failure(event.line, event.item, "(bus error)", event.raw)]
    if not event.differs:
        return []
    names = event.differ or (f"location {event.operands[1]}",)
    return [Failure(event.line, event.item, name, event.raw) for name in names]


def _steps(told: Other) -> Optional[Failure]:
    if told.kind != "total" or told.counts[0]:
        return None
    return Failure(told.line, told.raw.split(" ")[2].rstrip(":"), "(no step)", told.raw)


def read(
    log: str, name: str = "", allowed: Optional[Allowed] = None
) -> Tuple[List[Failure], Optional[str], int]:
    """A log's failures, why it isn't a whole log of this version, if so, and how many events it has."""
    may = allowed or Allowed()
    found: List[Failure] = []
    lines = log.split("\n")
    if lines.pop() != "":
        return found, "the log is cut off within its last line", 0
    events, end = 0, None
    for told in read_log(lines):
        if end is not None:
            return found, f"line {told.line} stands behind the end", events
        if isinstance(told, Event):
            events += 1
            found += failures_of(told)
            if told.result == "refused" and not may.has("refused", name):
                found.append(Failure(told.line, told.item, "(refused)", told.raw))
        elif told.kind == "end":
            end = told
        elif told.kind == "refused":
            return found, told.raw, events
        elif told.kind == "note":
            found.append(Failure(told.line, "", "(link)", told.raw))
        elif told.kind == "unknown":
            return (
                found,
                f"line {told.line} is none that this version writes: {told.raw[:80]}",
                events,
            )
        elif _steps(told) and not may.has("no-steps", name):
            found += [it for it in [_steps(told)] if it]
    return found, _whole(end, events, found) or _some(events, name, may), events


def _whole(end: Optional[Other], events: int, found: List[Failure]) -> Optional[str]:
    """Why the last line doesn't agree with those above it, if so."""
    if end is None:
        return "the log has no last line"
    errors = sum(it.field == "(bus error)" for it in found)
    others = sum(it.field in BESIDE for it in found)
    counted, seen = list(end.counts), [events, len(found) - errors - others, errors]
    return (
        None
        if counted == seen
        else f"its last line counts {counted}, and the lines above it {seen}"
    )


def _some(events: int, name: str, may: Allowed) -> Optional[str]:
    return None if events or may.has("empty", name) else "it has no operation"


# What XML and HTML can't have, also not as a reference: a peer's line, a log that is none or a file's name may have it.
_UNWRITABLE = re.compile("[^\t\n\r -\ud7ff\ue000-\ufffd\U00010000-\U0010ffff]")


def plain(text: str) -> str:
    """A text as a report can have it."""
    return _UNWRITABLE.sub("\ufffd", text)


def escaped(text: str) -> str:
    """A text as HTML can have it."""
    return html.escape(plain(text))


def text_of(log: Path) -> str:
    """A log's text. It may have a byte order mark and CRLF; a carriage return within a peer's line stays."""
    return log.read_bytes().decode("utf-8-sig", "replace").replace("\r\n", "\n")


def judge(log: Path, allowed: Optional[Allowed] = None) -> Result:
    """What a log comes to with the exit status in NAME.status beside it, and the seconds in NAME.seconds, if they are there."""
    status, seconds = log.with_suffix(".status"), log.with_suffix(".seconds")
    missing = next((it for it in (log, status) if not it.is_file()), None)
    if missing:
        text = f"the session wasn't run to its end: {missing.name} isn't there"
        return Result(log.stem, [], text, 0.0, 0)
    failures, why, events = read(text_of(log), log.stem, allowed)
    code, took = _number(int, status), _number(float, seconds)
    differing = [it for it in failures if it.field not in BESIDE or it.field == "(link)"]
    if code is None:
        why = f"{status.name} has no exit status"
    elif code not in (0, 1):
        told = STATUSES.get(code, f"status {code}")
        why = f"{told}: {why}" if why else told
    elif not why and (code == 1) != bool(differing):
        why = f"the status is {code}, and the log shows {len(differing)} failures"
    return Result(log.stem, failures, why, took or 0.0, events)


def _number(kind: Callable[[str], Number], file: Path) -> Optional[Number]:
    """The number in a file; None where it isn't there, or has none, as after the disk was full."""
    try:
        return kind(file.read_text(errors="replace"))
    except (OSError, ValueError):
        return None
