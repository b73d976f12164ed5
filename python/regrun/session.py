"""A session: operations that a program performs and judges, one after the other, while Python decides what comes next."""

from __future__ import annotations

import difflib
import functools
import operator
import os
import re
import time
from pathlib import Path
from typing import TYPE_CHECKING, Any, Dict, List, Optional, Sequence, Tuple, Union

from . import events as log
from . import program as running
from .compare import fields_of, table
from .description import Description, Field, text_of
from .errors import (
    BusError,
    DescriptionError,
    Difference,
    LineRefused,
    LinkBroken,
    NoSteps,
    NotDone,
    OperationError,
    ProgramEnded,
    ProtocolError,
    Refused,
    Unexpected,
    UnknownName,
    WaitTimeout,
)
from .events import Burst, Event, Other, SequenceRun
from .program import __tracebackhide__  # noqa: F401
from .views import Node, view_of

if TYPE_CHECKING:
    from types import TracebackType
    from typing import Type

Value = Union[int, str]
Where = Union[str, "os.PathLike[str]"]

_ON_ERROR = ("raise", "return")
_NUMBERED = re.compile(r"(.*?[^\d_.])_?(\d+)$")
_MOST = (1 << 64) - 1
_MOST_LINE = 4096
_MOST_BURST = 256


@functools.lru_cache(maxsize=16)
def _read(text: str, notes: Optional[str]) -> Description:
    return Description.read(f"{text}\n", notes)


class Names:
    """What a description calls things, looked up by path."""

    def __init__(self, chip: Description) -> None:
        self.chip = chip
        self.registers = chip.registers
        self.memories = chip.memories
        self.fields: Dict[str, Tuple[str, Field]] = {
            f"{path}.{field.name}": (path, field)
            for path, reg in self.registers.items()
            for field in reg.fields
        }
        self.blocks = {row.path for row in chip.rows["block"]}
        self.files = {row.path for row in chip.rows["file"]}
        self.maps = {row.name for row in chip.rows["map"]}
        self.kinds = set(chip.kinds)
        self.arrays: Dict[str, Dict[int, str]] = {}
        for path in (*self.registers, *self.memories, *self.blocks, *self.files):
            found = _NUMBERED.match(path)
            if found:
                self.arrays.setdefault(found[1], {})[int(found[2])] = path

    def reset(self, kind: str, mirrored: Dict[str, int]) -> None:
        """Mirrored values after a reset of a kind."""
        for path, reg in self.registers.items():
            mirrored[path] = reg.after_reset(kind, mirrored.get(path, 0))

    def require(self, name: str, known: Any, what: str) -> None:
        """Raises UnknownName, with the nearest names, where a name isn't known."""
        if name not in known:
            near = difflib.get_close_matches(str(name), list(known), 3, 0.5)
            text = f"no such {what}: {name!r}"
            raise UnknownName(f"{text}; near it: {', '.join(near)}" if near else text)


class Session:
    """A session over the device model, or over a target.

        with regrun.Session("chip.toml") as s:
            s.write("uart.ctrl", 5)
            assert s.read("uart.ctrl").value == 5

    description  a file (TOML, or a session, of which the part above `---` counts), a text of several lines, or a Description
    target       what answers in the device's place (regrun.targets); without it `regrun run` has its model of the device
    program      the program to run; by default REGRUN or REGRUN_LINK, the launcher of the checkout, or what is on PATH
    log          a file that takes the log as the program writes it; by default it is kept in memory
    notes        a file with documentation and names of values; by default the one beside the description
    on_error     "raise", or "return": then an operation that goes wrong returns its event as any other; each operation
                 can say it for itself
    silence      seconds for which the program may write nothing while it is asked; None is no limit

    Each operation returns an Event, a sequence a SequenceRun and a burst a Burst. A refusal raises Refused, a failed item
    BusError, a differing field or location Difference, a sequence without a step NoSteps. A name that the description
    hasn't raises UnknownName, and nothing is sent. A program that ends raises ProgramEnded, and a target that fails
    TargetError. A session is for one thread.
    """

    def __init__(
        self,
        description: Union[Where, Description],
        target: Any = None,
        *,
        program: Optional[str] = None,
        log: Optional[Where] = None,
        notes: Optional[Where] = None,
        on_error: str = "raise",
        silence: Optional[float] = 60.0,
    ) -> None:
        if on_error not in _ON_ERROR:
            raise ValueError(f"on_error is {on_error!r}, and must be raise or return")
        _require_target(target)
        self._on_error = on_error
        self._target = target
        self._text, self._given = _described(description)
        self._notes = notes
        self._source = description
        self._names: Optional[Names] = None
        self._words: Dict[Tuple[str, str, Optional[str]], int] = {}
        self._mirrored: Dict[str, int] = {}
        self._counts = [0, 0, 0]
        self._line = 0
        self._script: List[str] = []
        self._others: List[Other] = []
        self._last: Union[None, Event, SequenceRun, Burst] = None
        self._status: Optional[int] = None
        self._closed = False
        self._asked = False
        self._notes_told: List[str] = []
        command = running.find("regrun-link" if target is not None else "regrun", program)
        self._kept = running.KeptLog(Path(log) if log is not None else None)
        self._program = running.Program(self._kept, silence)
        try:
            self._start(command)
        except BaseException:
            self._abandon()
            raise

    def _start(self, command: List[str]) -> None:
        if self._target is not None:
            self._program.start_linked(command, self._target)
        else:
            self._program.start(command)
        told = self._program.begin(f"{self._text}\n---\n".encode("utf-8"))
        self._sync_script()
        if told:
            self._refuse(told[-1])
            raise ProtocolError(f"before the first line the program said: {told[0]!r}")

    def _refuse(self, line: str) -> None:
        """Raises DescriptionRefused where a line refuses the description, also where Python can't read its rows."""
        said, source = self._program.said(), self._read_from
        if self._given is not None:
            self._given.refusal(line, said)
        try:
            chip = self.chip
        except DescriptionError:
            chip = Description.outline(source)
        chip.refusal(line, said, "<text>" if "\n" in source else source)

    # The session itself.

    @property
    def chip(self) -> Description:
        """The description as Python has it."""
        return self._known.chip

    @property
    def _read_from(self) -> str:
        """The path of the description's file, or else its text, which has several lines."""
        path = isinstance(self._source, (str, os.PathLike)) and "\n" not in str(self._source)
        return str(self._source) if path else f"{self._text}\n"

    @property
    def _known(self) -> Names:
        names = self._names
        if names is None:
            chip = self._given
            notes = str(self._notes) if self._notes else None
            if chip is None and "\n" not in self._read_from:
                chip = _read_file(self._read_from, notes)
            elif chip is None:
                chip = _read(self._text, notes)
            self._names = names = Names(chip)
            names.reset("HARD", self._mirrored)
        return names

    @property
    def log(self) -> str:
        """The log up to now, as the program wrote it."""
        return self._kept.text()

    @property
    def session(self) -> str:
        """The session up to now: description, separator, and the lines that were sent. `regrun run` takes it again."""
        return "\n".join([self._text, "---", *self._script]) + "\n"

    @property
    def status(self) -> Optional[int]:
        """The program's exit status, once the session is closed."""
        return self._status

    @property
    def events(self) -> int:
        """How many events there were."""
        return self._counts[0]

    @property
    def differences(self) -> int:
        """How many differences the log counts up to now."""
        return self._counts[1]

    @property
    def bus_errors(self) -> int:
        """How many bus errors the log counts up to now."""
        return self._counts[2]

    @property
    def last(self) -> Union[None, Event, SequenceRun, Burst]:
        """What the last operation returned, or the event of the exception that it raised."""
        return self._last

    @property
    def others(self) -> List[Other]:
        """Lines of the log that are neither operations nor items nor those of a sequence."""
        return list(self._others)

    def mirrored(self, register: str) -> int:
        """The mirrored value of a register, as the log tells it."""
        names = self._known
        names.require(register, names.registers, "register")
        return self._mirrored[register]

    def __enter__(self) -> "Session":
        return self

    def __exit__(
        self,
        kind: "Optional[Type[BaseException]]",
        error: Optional[BaseException],
        trace: "Optional[TracebackType]",
    ) -> None:
        if kind is not None:
            self._abandon()
        else:
            self.close()

    def _abandon(self) -> None:
        """Closes where something else is told already."""
        self._program.hurry()
        try:
            self.close()
        except Exception:  # what went wrong first is what counts
            pass

    def close(self) -> None:
        """Ends the script, and waits for program and target. Raises where they didn't end as they should.

        ProgramEnded: the program was killed or couldn't read or write, or an operation was interrupted before its end; then
        the target isn't asked any more, and the program is given one second. LinkBroken: the link broke, and no operation told it.
        ProtocolError: the last line counts otherwise than the events that were told.
        """
        if self._closed:
            return
        self._closed = True
        was_running = self._program.running
        try:
            self._status = self._program.close()
        finally:
            self._kept.close()
        rest = self._program._take_all()
        if was_running and self._program.interrupted:
            raise ProgramEnded("an operation was interrupted, so the log isn't whole", self._status)
        if was_running:
            self._judge_end(rest)

    def _judge_end(self, rest: List[str]) -> None:
        """Whether the session ended as it should."""
        for raw in rest:
            self._line += 1
            self._others.append(log.other(self._line, raw))
        if self._status not in (0, 1, 7):
            raise self._program._cause()
        if not rest or self._others[-1].kind != "end":
            raise ProtocolError("the log has no last line")
        if list(self._others[-1].counts) != self._counts:
            raise ProtocolError(
                f"the last line of the log is {rest[-1]!r}, and the events count {self._counts}"
            )
        if self._status == 7:
            raise LinkBroken(f"the link to the device broke: {self._program.said()}")

    # Operations on registers.

    def write(
        self,
        register: str,
        value: Value,
        map: Optional[str] = None,
        *,
        on_error: Optional[str] = None,
    ) -> Event:
        """Writes a register over the bus, or a field, as `field_write`."""
        if register not in self._known.registers and register in self._known.fields:
            return self.field_write(register, value, map, on_error=on_error)
        return self._operate("write", register, value, map, on_error)

    def read(
        self, register: str, map: Optional[str] = None, *, on_error: Optional[str] = None
    ) -> Event:
        """Reads a register over the bus, or a field, as `field_read`; the mirror follows."""
        if register not in self._known.registers and register in self._known.fields:
            return self.field_read(register, map, on_error=on_error)
        return self._operate("read", register, None, map, on_error)

    def mirror(
        self, register: str, map: Optional[str] = None, *, on_error: Optional[str] = None
    ) -> Event:
        """Reads a register, under the name that the standard gives it."""
        return self._operate("mirror", register, None, map, on_error)

    def check(
        self, register: str, map: Optional[str] = None, *, on_error: Optional[str] = None
    ) -> Event:
        """Reads a register, and raises Difference where a compared field isn't as it was mirrored before."""
        return self._operate("check", register, None, map, on_error)

    def update(
        self,
        register: str,
        map: Optional[str] = None,
        *,
        on_error: Optional[str] = None,
        **fields: Value,
    ) -> Event:
        """Brings a register to its desired values by one write; with fields, these are set before."""
        for name, value in fields.items():
            self.set(f"{register}.{name}", value, on_error=on_error)
        return self._operate("update", register, None, map, on_error)

    def field_write(
        self, field: str, value: Value, map: Optional[str] = None, *, on_error: Optional[str] = None
    ) -> Event:
        """Writes one field: alone where it may, else with a neutral word in each other field."""
        return self._operate("field-write", field, value, map, on_error)

    def field_read(
        self, field: str, map: Optional[str] = None, *, on_error: Optional[str] = None
    ) -> Event:
        """Reads one field."""
        return self._operate("field-read", field, None, map, on_error)

    def set(self, field: str, value: Value, *, on_error: Optional[str] = None) -> Event:
        """Sets a field's desired value; nothing is sent before `update`."""
        return self._operate("set", field, value, None, on_error)

    def show(self, register: str, *, on_error: Optional[str] = None) -> Event:
        """The desired and the mirrored value of a register."""
        return self._operate("show", register, None, None, on_error)

    def peek(self, register: str, *, on_error: Optional[str] = None) -> Event:
        """The raw bits in the device, by the backdoor."""
        return self._operate("peek", register, None, None, on_error)

    def poke(self, register: str, value: Value, *, on_error: Optional[str] = None) -> Event:
        """Deposits raw bits in the device, by the backdoor."""
        return self._operate("poke", register, value, None, on_error)

    def back_read(self, register: str, *, on_error: Optional[str] = None) -> Event:
        """A read by the policies, through the backdoor."""
        return self._operate("back-read", register, None, None, on_error)

    def back_check(self, register: str, *, on_error: Optional[str] = None) -> Event:
        """A check through the backdoor."""
        return self._operate("back-check", register, None, None, on_error)

    def back_write(self, register: str, value: Value, *, on_error: Optional[str] = None) -> Event:
        """A write by the policies, through the backdoor."""
        return self._operate("back-write", register, value, None, on_error)

    def other_write(
        self,
        register: str,
        value: Value,
        map: Optional[str] = None,
        *,
        on_error: Optional[str] = None,
    ) -> Event:
        """A write of another master, on a bus that predicts explicitly."""
        return self._operate("other-write", register, value, map, on_error)

    def other_read(
        self, register: str, map: Optional[str] = None, *, on_error: Optional[str] = None
    ) -> Event:
        """A read of another master, on a bus that predicts explicitly."""
        return self._operate("other-read", register, None, map, on_error)

    def hw(self, field: str, value: Value, *, on_error: Optional[str] = None) -> Event:
        """The hardware changes a volatile field; the model doesn't know."""
        return self._operate("hw", field, value, None, on_error)

    def reset(self, kind: str = "HARD", *, on_error: Optional[str] = None) -> Event:
        """Resets device and model."""
        names = self._known
        names.require(kind, names.kinds, "kind of reset")
        return self._event(f"reset {kind}", ("reset", kind, None), on_error)

    # Memories.

    def mem_write(
        self,
        memory: str,
        index: int,
        value: int,
        map: Optional[str] = None,
        *,
        on_error: Optional[str] = None,
    ) -> Event:
        """Writes a location over the bus."""
        return self._locate("mem-write", memory, (index, value), map, on_error)

    def mem_read(
        self, memory: str, index: int, map: Optional[str] = None, *, on_error: Optional[str] = None
    ) -> Event:
        """Reads a location over the bus."""
        return self._locate("mem-read", memory, (index,), map, on_error)

    def mem_check(
        self,
        memory: str,
        index: int,
        value: int,
        map: Optional[str] = None,
        *,
        on_error: Optional[str] = None,
    ) -> Event:
        """Reads a location, and raises Difference where it hasn't the value."""
        return self._locate("mem-check", memory, (index, value), map, on_error)

    def mem_peek(self, memory: str, index: int, *, on_error: Optional[str] = None) -> Event:
        """A location by the backdoor."""
        return self._locate("mem-peek", memory, (index,), None, on_error)

    def mem_poke(
        self, memory: str, index: int, value: int, *, on_error: Optional[str] = None
    ) -> Event:
        """Deposits a location by the backdoor."""
        return self._locate("mem-poke", memory, (index, value), None, on_error)

    def burst_write(
        self,
        memory: str,
        index: int,
        values: Sequence[int],
        map: Optional[str] = None,
        *,
        on_error: Optional[str] = None,
    ) -> Burst:
        """Writes up to 256 locations from an index on, up to and with the first bus error."""
        return self._burst("burst-write", memory, (index, *values), map, on_error)

    def burst_read(
        self,
        memory: str,
        index: int,
        count: int,
        map: Optional[str] = None,
        *,
        on_error: Optional[str] = None,
    ) -> Burst:
        """Reads up to 256 locations from an index on, up to and with the first bus error."""
        return self._burst("burst-read", memory, (index, count), map, on_error)

    # Sequences, and lines by hand.

    def seq(self, name: str, block: str = "*", *, on_error: Optional[str] = None) -> SequenceRun:
        """A sequence over a block, or the whole chip. Raises NoSteps where it found nothing to do."""
        names = self._known
        names.require(name, ("hw-reset", "bit-bash", "access", "shared", "mem-walk"), "sequence")
        if block != "*":
            names.require(block, names.blocks, "block")
        found = self._run(f"seq {name} {block}")
        total = self._others.pop()
        # Over a target notes may stand between its events.
        begin = next(it for it in reversed(self._others) if it.kind == "begin")
        self._others.remove(begin)
        steps, differences, bus_errors = total.counts
        run = SequenceRun(begin.line, name, block, steps, differences, bus_errors, found)
        self._last = run
        self._raise_target()
        if not run.ok and self._raises(on_error):
            raise self._sequence_error(run)
        return run

    def do(self, line: str, *, on_error: Optional[str] = None) -> List[Event]:
        """A line of a script as it is: its events."""
        before = len(self._others)
        try:
            found = self._run(line)
        except LineRefused as error:
            return [self._refused_line(error, on_error)]
        if found:
            self._last = found[-1]
        self._raise_target()
        failing = [it for it in found if not it.ok]
        if failing and self._raises(on_error):
            raise self._error(failing[0])
        if found and found[-1].operation in _OF_TARGET and self._raises(on_error):
            self._require_done(found[-1])
        idle = [it for it in self._others[before:] if it.kind == "total" and not it.counts[0]]
        if idle and self._raises(on_error):
            raise NoSteps(f"{line}: no step was made (line {idle[0].line} of the log)")
        return found

    # What the script can't say.

    def expect(
        self,
        item: str,
        value: Value,
        mask: Optional[int] = None,
        map: Optional[str] = None,
        *,
        on_error: Optional[str] = None,
    ) -> Event:
        """Reads a register or field, and raises Unexpected where it hasn't the value in the bits of the mask.

        It compares with the given value, and `check` with the mirrored one; so it is for what the device changes by itself.
        """
        number = self._number(item, value)
        _require_bits(mask)
        event = self.read(item, map, on_error=on_error)
        if event.result == "ok" and self._misses(event, number, mask) and self._raises(on_error):
            raise Unexpected(*self._missed("expected", item, event, number, mask))
        return event

    def wait(
        self,
        item: str,
        mask: Optional[int] = None,
        value: Optional[Value] = None,
        *,
        timeout: float = 1.0,
        reads: int = 100_000,
        interval: float = 0.0,
        map: Optional[str] = None,
    ) -> Event:
        """Reads a register or field until it has the value in the bits of the mask.

        It gives up after `timeout` seconds or `reads` reads, whichever is first, and raises WaitTimeout; it reads once at
        least. `interval` is a pause between reads in seconds. Without a value all bits of the mask must be 1, and without
        a mask all bits of the value count.
        """
        if mask is None and value is None:
            raise ValueError("wait needs a mask or a value")
        _require_bits(mask)
        number = self._number(item, value) if value is not None else mask
        assert number is not None
        start = time.monotonic()
        for turn in range(1, max(1, reads) + 1):
            event = self.read(item, map, on_error="raise")
            if not self._misses(event, number, mask):
                return event
            if time.monotonic() - start >= timeout:
                break
            if interval:
                time.sleep(interval)
        error = WaitTimeout(*self._missed("waited for", item, event, number, mask))
        error.reads, error.seconds = turn, time.monotonic() - start
        error.args = (f"{error.args[0]}\n  given up after {turn} reads and {error.seconds:.3f} s",)
        raise error

    # By attribute.

    def __getitem__(self, path: str) -> Any:
        """A block, register, field or memory by its path, or the registers of an array by the name before their number."""
        return view_of(self, self._known, path)

    def __getattr__(self, name: str) -> Any:
        if name.startswith("_"):
            raise AttributeError(name)
        return view_of(self, self._known, name)

    def __setattr__(self, name: str, value: Any) -> None:
        if name[0] == "_":
            object.__setattr__(self, name, value)
        else:
            Node(self, self._known, "").__setattr__(name, value)

    def __dir__(self) -> List[str]:
        return sorted({*super().__dir__(), *Node(self, self._known, "").children()})

    # How a line is sent, and what comes of it.

    def _operate(
        self,
        command: str,
        item: str,
        value: Optional[Value],
        map: Optional[str],
        on_error: Optional[str],
    ) -> Event:
        names = self._known
        if command in _OF_FIELDS:
            if item not in names.fields:
                names.require(item, names.fields, "field")
        elif item not in names.registers:
            names.require(item, names.registers, "register")
        line = f"{command} {item}"
        if value is not None or command in _WITH_VALUE:
            line = f"{line} {self._number(item, value):#x}"
        if map is not None:
            names.require(map, names.maps, "map")
            line = f"{line} @{map}"
        return self._event(line, (command, item, map), on_error)

    def _locate(
        self,
        command: str,
        memory: str,
        numbers: Sequence[int],
        map: Optional[str],
        on_error: Optional[str],
    ) -> Event:
        return self._event(
            self._located(command, memory, numbers, map), (command, memory, map), on_error
        )

    def _located(
        self, command: str, memory: str, numbers: Sequence[int], map: Optional[str]
    ) -> str:
        names = self._known
        names.require(memory, names.memories, "memory")
        line = " ".join([command, memory, *(f"{self._number(memory, it):#x}" for it in numbers)])
        if map is not None:
            names.require(map, names.maps, "map")
            line = f"{line} @{map}"
        return line

    def _number(self, item: str, value: Optional[Value]) -> int:
        """A value as a number: itself, or what a field's named value is."""
        if isinstance(value, str):
            field = self._known.fields.get(item, (None, None))[1]
            if field is None:
                raise TypeError(f"a value of {item} is a number: {value!r}")
            self._known.require(value, field.values, f"value of {item}")
            return field.values[value]
        try:
            number = operator.index(value)  # type: ignore[arg-type]
        except TypeError:
            kind = type(value).__name__
            raise TypeError(f"a value of {item} is a number, and not {value!r} ({kind})") from None
        if not 0 <= number <= _MOST:
            raise ValueError(f"a value of {item} is 0 to 2^64-1: {value}")
        return number

    def _event(
        self, line: str, key: Tuple[str, str, Optional[str]], on_error: Optional[str]
    ) -> Event:
        """Sends a line that has one event, and judges it."""
        known = None  # over a target the log may have notes behind the items
        if self._target is None:
            known = 0 if key[0] in running.WITHOUT_ITEMS else self._words.get(key)
        self._script.append(line)
        before = self._program.exchanges
        answer, whole = self._program.ask(line, known)
        self._asked = self._program.exchanges > before
        if whole:
            self._sync_script()
        try:
            event = self._told(line, answer)
        except LineRefused as error:
            return self._refused_line(error, on_error)
        if (
            whole
            and event.result == "ok"
            and not (event.operation == "update" and event.value is None)
        ):
            self._words[key] = len(event._items)
        self._last = event
        if self._program.target_error is not None:
            self._raise_target()
        if (event.result != "ok" or event.differs) and self._raises(on_error):
            raise self._error(event)
        if key[0] in _OF_TARGET and self._raises(on_error):
            self._require_done(event)
        return event

    def _require_done(self, event: Event) -> None:
        """Raises NotDone where the target answered a reset or a change by something else than ok."""
        request, answer = self._program.last_exchange
        if event.result == "ok" and request == event.text and answer != "ok":
            raise NotDone(
                f"{event.text}: the target answered `{answer}` ({self._place(event)})", event
            )

    def _sync_script(self) -> None:
        """A blank line was sent behind the last one: so line numbers of a replay are the same."""
        self._script.append("")

    def _told(self, line: str, answer: List[str]) -> Event:
        """The one event of an answer."""
        if answer and answer[0].startswith(line) and answer[-1][0] != "#":
            try:
                event = Event(self._line + 1, answer[0], answer[1:])
            except ValueError as error:
                raise ProtocolError(str(error)) from None
            self._line += len(answer)
            self._took(event)
            if len(answer) < 2 or all(it.startswith("  ") for it in answer[1:]):
                return event
            raise ProtocolError(
                f"line {event.line} of the log has more behind it than items: {answer[1:]!r}"
            )
        found = self._taken(answer)
        if len(found) != 1:
            raise ProtocolError(f"`{line}` has no event of its own in the log: {answer!r}")
        return found[0]

    def _run(self, line: str) -> List[Event]:
        """Sends a line that may have many events."""
        if not isinstance(line, str) or "\n" in line or "\r" in line:
            raise ValueError(f"not one line: {line!r}")
        if not line.isascii():
            raise ValueError(f"a line of a script is ASCII: {line!r}")
        if len(line) > _MOST_LINE:
            raise ValueError(f"a line of {len(line)} bytes; {_MOST_LINE} are the most")
        self._script.append(line)
        before = self._program.exchanges
        answer = self._program.ask_all(line)
        self._asked = self._program.exchanges > before
        self._sync_script()
        return self._taken(answer)

    def _taken(self, answer: List[str]) -> List[Event]:
        """The events of lines of the log; other lines are kept, and a refused line is raised."""
        found: List[Event] = []
        self._notes_told = [it for it in answer if it.startswith("# ")]
        for told in log.read_log(answer, self._line + 1):
            if isinstance(told, Event):
                self._took(told)
                found.append(told)
                continue
            self._others.append(told)
            if told.kind == "refused":
                self._line += len(answer)
                raise self._refusal(told)
        self._line += len(answer)
        return found

    def _refusal(self, told: Other) -> LineRefused:
        """The exception of a line that is refused, with an event that says so."""
        sent = next((it for it in reversed(self._script) if it), "")
        try:
            event = Event(told.line, f"{sent}: refused {told.raw.partition(': ')[2]}")
        except ValueError:
            event = None
        return LineRefused(f"`{sent}`: {told.raw} (the session is over)", event)

    def _refused_line(self, error: LineRefused, on_error: Optional[str]) -> Event:
        """What comes of a line that is refused: its exception, or on request its event."""
        if isinstance(error.event, Event) and not self._raises(on_error):
            self._last = error.event
            return error.event
        raise error

    def _took(self, event: Event) -> None:
        """Follows counts and mirrored values, and gives a check what it was compared with."""
        counts = self._counts
        counts[0] += 1
        counts[1] += event.differences
        if event.result == "bus error":
            counts[2] += 1
        if event.operation == "reset":
            self._known.reset(event.item, self._mirrored)
        elif event.mirrored is not None:
            item = event.item
            if item not in self._mirrored:
                item = item.rpartition(".")[0]
            if event.operation in log.CHECKS:
                event.expected = self._mirrored.get(item)
            self._mirrored[item] = event.mirrored

    def _burst(
        self,
        command: str,
        memory: str,
        numbers: Sequence[int],
        map: Optional[str],
        on_error: Optional[str],
    ) -> Burst:
        line = self._located(command, memory, numbers, map)
        count = len(numbers) - 1 if command == "burst-write" else numbers[1]
        if not 1 <= count <= _MOST_BURST:
            raise ValueError(f"a burst has 1 to {_MOST_BURST} locations, and not {count}")
        found = self._run(line)
        if not found:
            raise ProtocolError(f"`{line}` has no event in the log")
        burst = Burst(found[0].line, line, found)
        self._last = burst
        self._raise_target()
        if not burst.ok and self._raises(on_error):
            raise self._error(next(it for it in found if not it.ok))
        return burst

    # What goes wrong.

    def _raises(self, on_error: Optional[str]) -> bool:
        how = self._on_error if on_error is None else on_error
        if how not in _ON_ERROR:
            raise ValueError(f"on_error is {how!r}, and must be raise or return")
        return how == "raise"

    def _raise_target(self) -> None:
        error, self._program.target_error = self._program.target_error, None
        if error is not None:
            raise error

    def _place(self, event: Union[Event, SequenceRun]) -> str:
        kept = f" of {self._kept.path}" if self._kept.path is not None else ""
        return f"line {event.line}{kept or ' of the log'}"

    def _error(self, event: Event) -> OperationError:
        """The exception of an event that isn't as it should be."""
        place = self._place(event)
        if event.result == "refused":
            return Refused(f"{event.text}: refused {event.reason} ({place})", event)
        if event.result == "bus error":
            return self._bus_error(event)
        register = self._known.registers.get(event.item)
        if register is None or event.value is None or event.expected is None:
            read = (
                ""
                if event.value is None
                else f"\n  expected {event.expected:#x}, read {event.value:#x}"
            )
            return Difference(f"{event.text}: differs ({place}){read}", event)
        fields = fields_of(register, event.expected, event.value, event.differ)
        count = f"{len(fields)} field{'s differ' if len(fields) > 1 else ' differs'}"
        shown = table(register, event.expected, event.value, event.differ)
        return Difference(f"{event.text}: {count} ({place})\n{shown}", event, fields)

    def _bus_error(self, event: Event) -> BusError:
        told = [
            f"{event.text}: bus error at word {event.failed_word} ({self._place(event)})",
            *map(str, event.items),
        ]
        if self._target is None:
            return BusError("\n".join(told), event)
        request, answer = self._program.last_exchange
        broke = [it for it in self._notes_told if it.startswith("# the link broke")]
        if broke:
            return LinkBroken("\n".join([*told, *broke]), event)
        if not self._asked:
            told[0] = f"{event.text}: the link to the device broke before ({self._place(event)})"
            told.append(f"  the last request was `{request}`, and its answer `{answer}`")
            return LinkBroken("\n".join(told), event)
        told.append(f"  the target answered `{answer}`")
        return BusError("\n".join(told), event)

    def _sequence_error(self, run: SequenceRun) -> OperationError:
        if not run.steps:
            return NoSteps(f"{run.text}: no step was made ({self._place(run)})", run)
        failing = [it for it in run.events if not it.ok]
        first = next((it for it in failing if it.differs), failing[0])
        error = self._error(first)
        counts = f"{run.steps} steps, {run.differences} differences, {run.bus_errors} bus errors"
        text = f"{run.text}: {counts} ({self._place(run)}); the first:\n{error}"
        if isinstance(error, Difference):
            return Difference(text, run, error.fields)
        return type(error)(text, run)

    def _misses(self, event: Event, value: int, mask: Optional[int]) -> bool:
        read = int(event)
        return read != value if mask is None else bool((read ^ value) & mask)

    def _missed(
        self, how: str, item: str, event: Event, value: int, mask: Optional[int]
    ) -> Tuple[str, Event, List[Any]]:
        """Text, event and fields of a value that wasn't read."""
        read = int(event)
        bits = "" if mask is None else f" in the bits {mask:#x}"
        head = f"{event.text}: {how} {value:#x}{bits}, read {read:#x} ({self._place(event)})"
        register = self._known.registers.get(item)
        if register is None:
            owner, field = self._known.fields[item]
            named = [field.named(it) for it in (value, read)]
            if any(named):
                head += f"\n  expected {named[0] or '-'}, read {named[1] or '-'}"
            return head, event, []
        wanted = value if mask is None else (read & ~mask) | (value & mask)
        names = [it.name for it in register.fields if it.value_of(wanted) != it.value_of(read)]
        return (
            f"{head}\n{table(register, wanted, read, names)}",
            event,
            fields_of(register, wanted, read, names),
        )


def _require_target(target: Any) -> None:
    """Raises TypeError for a class, a command or an address in the place of a target."""
    calls = (getattr(target, name, None) for name in ("start", "answer", "close"))
    if target is not None and (isinstance(target, type) or not all(map(callable, calls))):
        raise TypeError(f"a target is made by a class of regrun.targets, and this is {target!r}")


def _require_bits(mask: Optional[int]) -> None:
    """Raises TypeError for a mask that is no number, and ValueError for one of no bit, in which any two values are alike."""
    if mask is not None and not hasattr(mask, "__index__"):
        raise TypeError(f"a mask is a number, and not {mask!r}")
    if mask == 0:
        raise ValueError("a mask of 0 compares nothing; a value is given by value=0")


_OF_FIELDS = frozenset(["field-write", "field-read", "set", "hw"])
_OF_TARGET = frozenset(["reset", "hw"])
_WITH_VALUE = frozenset("write field-write set poke back-write other-write hw".split())


def _described(description: Union[Where, Description]) -> Tuple[str, Optional[Description]]:
    """The description's text, and the description where it was made in Python."""
    if isinstance(description, Description):
        return description.to_toml().rstrip("\n"), description
    return (
        text_of(description if isinstance(description, Path) else str(description))[0].rstrip("\n"),
        None,
    )


@functools.lru_cache(maxsize=16)
def _read_stamped(path: str, notes: Optional[str], stamps: Tuple[Any, ...]) -> Description:
    return Description.read(path, notes)


def _read_file(path: str, notes: Optional[str]) -> Description:
    """The description of a file, read once for each state of it and of its notes."""
    from .description import notes_path

    files = [Path(path), Path(notes) if notes else notes_path(Path(path))]
    stamps = tuple(
        (it.stat().st_mtime_ns, it.stat().st_size) if it.exists() else None for it in files
    )
    return _read_stamped(path, notes, stamps)
