"""What answers the requests of `regrun-link`: the class that each target is made of, and what it raises.

A request is one line: `w PORT 0xADDRESS 0xWORD LANES #TAG`, `r PORT 0xADDRESS 0x0 LANES #TAG`, `reset KIND` or
`hw FIELD 0xVALUE`. An answer is one line: `ok`, `ok 0x1f`, `error` (a bus error) or `none` (nothing here does this).
"""

from __future__ import annotations

import abc
import dataclasses
import logging
import re
from collections import deque
from types import TracebackType
from typing import Callable, Deque, Mapping, Optional, Sequence, Type, TypeVar, Union

log = logging.getLogger("regrun.targets")

_Self = TypeVar("_Self", bound="Target")
_TRANSFER = re.compile(r"([wr]) (\S+) 0x([0-9a-f]+) 0x([0-9a-f]+) ([01]+) #([0-9]+)", re.ASCII)
_RESET = re.compile(r"reset (\S+)", re.ASCII)
_CHANGE = re.compile(r"hw (\S+) 0x([0-9a-f]+)", re.ASCII)


class TargetError(Exception):
    """A request had no answer. The item fails, and the message says why; `request` is the line, if there was one."""

    def __init__(self, message: str, request: Optional[str] = None) -> None:
        self.request = request
        super().__init__(message if request is None else f"{message}; the request was `{request}`")


class TargetStartError(TargetError):
    """The target couldn't be started: a program isn't installed or ended at once, a file can't be opened."""


class TargetTimeout(TargetError):
    """No answer came within `seconds`."""

    def __init__(self, who: str, seconds: float, request: Optional[str] = None) -> None:
        self.seconds = seconds
        super().__init__(f"{who} gave no answer within {seconds:g} s", request)


class TargetEnded(TargetError):
    """The peer ended before it answered; the message has its status, and `last` its last lines of standard error."""

    def __init__(
        self, message: str, request: Optional[str] = None, last: Sequence[str] = ()
    ) -> None:
        self.last = list(last)
        super().__init__(message, request)

    def __str__(self) -> str:
        return "\n  ".join([super().__str__(), *self.last])


class TargetAnswerError(TargetError):
    """The peer answered by a line that is no answer to the request."""


class TargetRefused(TargetError):
    """The target can't make this access as it was asked for, so nothing was sent."""


class TargetWriteError(TargetError):
    """A write was answered `ok`, and another value was read back."""


@dataclasses.dataclass(frozen=True)
class Request:
    """A request, read: `verb` is `w`, `r`, `reset` or `hw`, and `name` the port, the kind or the field.

    `word` is the word of a write or the value of `hw`, `lanes` the byte enables with lane 0 last.
    """

    text: str
    verb: str
    name: str
    address: int = 0
    word: int = 0
    lanes: str = ""
    tag: int = 0

    @classmethod
    def parse(cls, text: str) -> Request:
        """Reads a request line. Raises TargetError where it is none."""
        found = _TRANSFER.fullmatch(text)
        if found:
            verb, name, address, word, lanes, tag = found.groups()
            return cls(text, verb, name, int(address, 16), int(word, 16), lanes, int(tag))
        found = _RESET.fullmatch(text)
        if found:
            return cls(text, "reset", found[1])
        found = _CHANGE.fullmatch(text)
        if found:
            return cls(text, "hw", found[1], word=int(found[2], 16))
        raise TargetError("this is no request of regrun-link", text)


class Target(abc.ABC):
    """What answers the requests of `regrun-link`. `start` comes first, `close` last, also after a failure.

    A session does both; `with target:` does so by hand. `timeout` is in seconds and holds for each answer. `notes` keeps
    the last 1,000 lines that a user may want to read: chatter of a simulator, the reason of an answer `error`. They go to
    the logger `regrun.targets`, too.
    """

    timeout: float = 5.0
    _broken: Optional[TargetError] = None

    @property
    def notes(self) -> Deque[str]:
        """The last 1,000 notes, the oldest first."""
        kept: Deque[str] = self.__dict__.setdefault("_notes", deque(maxlen=1000))
        return kept

    def note(self, text: str, level: int = logging.INFO) -> None:
        """Keeps a line in `notes` and logs it."""
        self.notes.append(text)
        log.log(level, "%s: %s", type(self).__name__, text)

    def start(self) -> None:
        """Called once, before the first request. Raises TargetStartError."""

    @abc.abstractmethod
    def answer(self, request: str) -> str:
        """Answers one request line, without its line end, by one answer line.

        Raises TargetError where it can't: the item then failed, and the session raises this error.
        """

    def _talk(self, ask: Callable[[str], str], request: str) -> str:
        """Asks, but not after a request without an answer: a late answer would be taken for that of another."""
        if self._broken:
            raise TargetError(f"nothing is sent any more: {self._broken}", request)
        try:
            return ask(request)
        except (TargetStartError, TargetTimeout, TargetEnded, TargetAnswerError) as error:
            self._broken = error
            raise
        except TargetError:
            raise
        except BaseException as error:  # an interrupt, for example: the answer may still come
            self._broken = TargetError(f"{type(error).__name__} came before the answer", request)
            raise

    def close(self) -> None:
        """Called once, also after a failure; leaves no process behind."""

    def __enter__(self: _Self) -> _Self:
        try:
            self.start()
        except BaseException:
            self.close()
            raise
        return self

    def __exit__(
        self,
        kind: Optional[Type[BaseException]],
        error: Optional[BaseException],
        trace: Optional[TracebackType],
    ) -> None:
        self.close()


@dataclasses.dataclass(frozen=True)
class Port:
    """Where a port of the description stands in the target: its address A is the byte address `base` + A * `unit`.

    `unit` is 1 for a map with byte addresses, and the map's bytes for one whose addresses count words.
    """

    base: int = 0
    unit: int = 1


@dataclasses.dataclass(frozen=True)
class Access:
    """One load or store of `size` bytes at a byte address; `value` is what is stored, `shift` where it stands in the word."""

    write: bool
    address: int
    size: int
    value: int
    shift: int
    request: Request


Ports = Mapping[str, Union[int, Port]]
Verify = Union[bool, Callable[[Access], bool]]


class MemoryTarget(Target):
    """A target whose requests are loads and stores of the width that the byte enables say.

    All lanes enabled is one access of the map's width. Some lanes are one narrower access, where they are 1, 2 or 4
    neighbours and stand at a multiple of their number: lane K is the byte at the address + K. Any other lanes, a width
    that isn't 1, 2, 4 or 8, and an address that isn't a multiple of the access are refused (TargetRefused). Where `order`
    is `big` a narrow access is refused, too: its lanes don't tell which byte of the memory is meant.

    `ports` has the base of each port, or a Port; a port that it lacks has the base 0, and its addresses count bytes.
    `verify` is True, or says of a write whether it may be read back: where another value comes, TargetWriteError.
    """

    order: str = "little"

    def __init__(self, ports: Optional[Ports] = None, verify: Verify = False) -> None:
        self._ports = {
            name: port if isinstance(port, Port) else Port(port)
            for name, port in (ports or {}).items()
        }
        self._verify = verify

    @abc.abstractmethod
    def load(self, access: Access) -> Optional[int]:
        """What stands there, or None for a bus error."""

    @abc.abstractmethod
    def store(self, access: Access) -> bool:
        """Stores the value; False for a bus error."""

    def reset(self, kind: str) -> bool:
        """Makes a reset of the kind; False where there is none."""
        return False

    def access(self, request: Request) -> Access:
        """The access that a request of a transfer asks for. Raises TargetRefused."""
        lanes = request.lanes[::-1]
        first, size = lanes.find("1"), lanes.count("1")
        if size not in (1, 2, 4, 8) or first % size or "1" * size not in lanes:
            why = "the lanes are no 1, 2, 4 or 8 neighbours at a multiple of their number"
            raise TargetRefused(
                f"an access of the lanes {request.lanes} can't be made: {why}", request.text
            )
        if self.order == "big" and size < len(lanes):
            why = f"an access of the lanes {request.lanes} can't be made: the byte order is big"
            raise TargetRefused(why, request.text)
        port = self._ports.get(request.name, Port())
        address = port.base + request.address * port.unit + first
        if address % size:
            why = f"{address:#x} is no multiple of {size}"
            raise TargetRefused(f"an access of {size} bytes can't be made: {why}", request.text)
        value = request.word >> 8 * first & (1 << 8 * size) - 1
        return Access(request.verb == "w", address, size, value, 8 * first, request)

    def answer(self, request: str) -> str:
        return self._talk(self._answer, request)

    def _answer(self, request: str) -> str:
        asked = Request.parse(request)
        if asked.verb == "reset":
            return "ok" if self.reset(asked.name) else "none"
        if asked.verb == "hw":
            return "none"
        access = self.access(asked)
        if access.write:
            return self._write(access)
        word = self.load(access)
        return "error" if word is None else f"ok {word << access.shift:#x}"

    def _write(self, access: Access) -> str:
        if not self.store(access):
            return "error"
        wanted = self._verify(access) if callable(self._verify) else self._verify
        if wanted:
            back = self.load(access)
            if back != access.value:
                came = "a bus error" if back is None else f"{back:#x}"
                said = f"{access.value:#x} was written at {access.address:#x}, and {came} was read back"
                raise TargetWriteError(said, access.request.text)
        return "ok"
