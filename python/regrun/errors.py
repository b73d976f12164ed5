"""What goes wrong in a session, each cause an exception of its own."""

from __future__ import annotations

from typing import TYPE_CHECKING, List, NamedTuple, Optional, Sequence, Union

from .targets.base import TargetError

if TYPE_CHECKING:
    from .events import Burst, Event, SequenceRun

__all__ = [
    "BusError",
    "DescriptionError",
    "DescriptionRefused",
    "Difference",
    "FieldDifference",
    "LineRefused",
    "LinkBroken",
    "LogError",
    "NoSteps",
    "NotDone",
    "OperationError",
    "ProgramEnded",
    "ProgramNotFound",
    "ProtocolError",
    "Refused",
    "RegrunError",
    "STATUSES",
    "TargetError",
    "Unexpected",
    "UnknownName",
    "WaitTimeout",
]

#: What an exit status of the programs and of their launcher means; 124 is that of timeout(1).
STATUSES = {
    0: "it was read to its end, and nothing differed or failed",
    1: "a check differed or an item failed",
    2: "the session is refused",
    3: "its input couldn't be read",
    4: "its output couldn't be written",
    5: "memory was wanting",
    6: "regrun was called with other words",
    7: "the link to the device broke",
    69: "rt wasn't found",
    70: "regrun couldn't be built",
    73: "the launcher couldn't write its folder",
    124: "it didn't end in time",
}


class RegrunError(Exception):
    """The root of the exceptions of this package."""


class DescriptionError(RegrunError, ValueError):
    """A description says what can't be: the text begins with the file and the line that say it."""


class DescriptionRefused(DescriptionError):
    """The program refused the description.

    `where` is the place as the program tells it (`reg 3 field 2`, or empty), `reason` its reason, and `origin` the file and
    line of that row, where they are known. The text ends with the wrong word, where the program names it.
    """

    def __init__(
        self,
        where: str,
        reason: str,
        origin: Optional[str] = None,
        name: str = "",
        detail: str = "",
    ) -> None:
        place = " ".join(it for it in (where, f"({name})" if name else "") if it)
        parts = (origin, "the description is refused", place, reason, detail)
        super().__init__(": ".join(it for it in parts if it))
        self.where, self.reason, self.origin = where, reason, origin


class ProgramNotFound(RegrunError, FileNotFoundError):
    """No program regrun (or regrun-link) is at hand; the text says where it was looked for."""


class ProgramEnded(RegrunError):
    """The program ended before its answer: it was killed, couldn't write, or never began.

    `status` is its exit status, or minus the signal's number; `said` is the end of what it wrote to standard error.
    """

    def __init__(self, text: str, status: Optional[int] = None, said: str = "") -> None:
        super().__init__(f"{text}: {said}" if said else text)
        self.status, self.said = status, said


class ProtocolError(RegrunError):
    """The program wrote what no version that this package knows would write."""


class LogError(RegrunError, OSError):
    """The kept log couldn't be written, for example because the disk is full."""


class UnknownName(RegrunError, AttributeError):
    """The description has no such name; nothing was sent. The text has the nearest names."""


class OperationError(RegrunError):
    """An operation didn't do what it should.

    `event` is the operation's event, sequence or burst, and `line` its line in the log.
    """

    def __init__(
        self, text: str, event: "Optional[Union[Event, SequenceRun, Burst]]" = None
    ) -> None:
        super().__init__(text)
        self.event = event
        self.line = event.line if event is not None else None


class Refused(OperationError):
    """The operation was refused, and nothing was sent: no right, too wide, not placed and the like."""


class LineRefused(OperationError):
    """The program refused the script line itself and has ended: the session is over."""


class BusError(OperationError):
    """An item of the access was answered by an error."""


class LinkBroken(BusError):
    """The link to the device broke, and nothing is sent any more."""


class NotDone(OperationError):
    """The target can't do a reset or a change by the hardware, so nothing was done."""


class NoSteps(OperationError):
    """A sequence found nothing to do, so it has shown nothing."""


class FieldDifference(NamedTuple):
    """A field as it was expected and as it was read."""

    name: str
    lsb: int
    width: int
    expected: int
    read: int


class Difference(OperationError, AssertionError):
    """A check found another value than the mirrored one, or a memory another than the given one.

    `fields` has each differing field with its expected and its read value.
    """

    def __init__(
        self,
        text: str,
        event: "Optional[Union[Event, SequenceRun, Burst]]" = None,
        fields: Sequence[FieldDifference] = (),
    ) -> None:
        super().__init__(text, event)
        self.fields: List[FieldDifference] = list(fields)


class Unexpected(Difference):
    """`expect` read another value than it was given."""


class WaitTimeout(Difference, TimeoutError):
    """`wait` didn't read its value within its bounds. `reads` and `seconds` say how far it went."""

    reads = 0
    seconds = 0.0
