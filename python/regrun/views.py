"""Blocks, registers, fields and memories of a session by attribute: `s.uart.ctrl.enable = 1`, `int(s.uart.ctrl.level)`."""

from __future__ import annotations

from typing import TYPE_CHECKING, Any, Iterator, List, Optional, Union

from .errors import UnknownName
from .events import Event
from .program import __tracebackhide__  # noqa: F401

if TYPE_CHECKING:
    from .session import Names, Session

Value = Union[int, str]


class View:
    """What stands at a path. Names that begin with `_` are its own."""

    def __init__(self, session: "Session", names: "Names", path: str) -> None:
        object.__setattr__(self, "_session", session)
        object.__setattr__(self, "_names", names)
        object.__setattr__(self, "_path", path)

    def __repr__(self) -> str:
        return f"<{type(self).__name__} {self._path}>"

    def __getattr__(self, name: str) -> Any:
        if name.startswith("_"):
            raise AttributeError(name)
        return view_of(self._session, self._names, f"{self._path}.{name}" if self._path else name)

    def __getitem__(self, name: Any) -> Any:
        return view_of(
            self._session, self._names, f"{self._path}.{name}" if self._path else str(name)
        )

    def __setattr__(self, name: str, value: Any) -> None:
        child = self.__getattr__(name)
        if not isinstance(child, (RegisterView, FieldView)):
            raise UnknownName(
                f"{child._path} is no register and no field, so nothing can be written to it"
            )
        child.write(value)

    def children(self) -> List[str]:
        """The names that stand directly below it."""
        prefix = f"{self._path}." if self._path else ""
        names = self._names
        paths = (*names.blocks, *names.files, *names.registers, *names.memories, *names.fields)
        return sorted({it[len(prefix) :].split(".")[0] for it in paths if it.startswith(prefix)})

    def __dir__(self) -> List[str]:
        return sorted({*super().__dir__(), *self.children()})

    # For the type checker: what __init__ makes.
    _session: "Session"
    _names: "Names"
    _path: str


class Node(View):
    """A block, a register file, or the whole chip."""


class _Readable(View):
    """What `int()` reads: a comparison, which would be of the view itself, is an error, and so is its truth."""

    def _unread(self) -> TypeError:
        return TypeError(
            f"{self._path} is no number: int() reads it over the bus, .mirrored sends nothing"
        )

    def __eq__(self, other: object) -> bool:
        raise self._unread()

    __hash__ = View.__hash__

    def __bool__(self) -> bool:
        raise self._unread()


class RegisterView(_Readable):
    """A register. `int()` reads it over the bus, and an assignment to a field writes the field over the bus."""

    def __int__(self) -> int:
        return int(self.read())

    __index__ = __int__

    def read(self, map: Optional[str] = None, **more: Any) -> Event:
        """Session.read"""
        return self._session.read(self._path, map, **more)

    def write(self, value: Value, map: Optional[str] = None, **more: Any) -> Event:
        """Session.write"""
        return self._session.write(self._path, value, map, **more)

    def mirror(self, map: Optional[str] = None, **more: Any) -> Event:
        """Session.mirror"""
        return self._session.mirror(self._path, map, **more)

    def check(self, map: Optional[str] = None, **more: Any) -> Event:
        """Session.check"""
        return self._session.check(self._path, map, **more)

    def set(self, **fields: Value) -> "RegisterView":
        """Sets desired values of fields, by their names."""
        for name, value in fields.items():
            self._session.set(f"{self._path}.{name}", value)
        return self

    def update(self, map: Optional[str] = None, **fields: Value) -> Event:
        """Session.update: sets the fields that are given, and brings the register to its desired values."""
        self.set(**fields)
        return self._session.update(self._path, map)

    def show(self, **more: Any) -> Event:
        """Session.show"""
        return self._session.show(self._path, **more)

    def peek(self, **more: Any) -> Event:
        """Session.peek"""
        return self._session.peek(self._path, **more)

    def poke(self, value: int, **more: Any) -> Event:
        """Session.poke"""
        return self._session.poke(self._path, value, **more)

    def back_read(self, **more: Any) -> Event:
        """Session.back_read"""
        return self._session.back_read(self._path, **more)

    def back_check(self, **more: Any) -> Event:
        """Session.back_check"""
        return self._session.back_check(self._path, **more)

    def back_write(self, value: int, **more: Any) -> Event:
        """Session.back_write"""
        return self._session.back_write(self._path, value, **more)

    def expect(self, value: int, mask: Optional[int] = None, **more: Any) -> Event:
        """Session.expect"""
        return self._session.expect(self._path, value, mask, **more)

    def wait(self, mask: Optional[int] = None, value: Optional[int] = None, **more: Any) -> Event:
        """Session.wait"""
        return self._session.wait(self._path, mask, value, **more)

    @property
    def mirrored(self) -> int:
        """The mirrored value; nothing is sent."""
        return self._session.mirrored(self._path)


class FieldView(_Readable):
    """A field. `int()` reads it over the bus."""

    def __int__(self) -> int:
        return int(self.read())

    __index__ = __int__

    def read(self, map: Optional[str] = None, **more: Any) -> Event:
        """Session.field_read"""
        return self._session.field_read(self._path, map, **more)

    def write(self, value: Value, map: Optional[str] = None, **more: Any) -> Event:
        """Session.field_write"""
        return self._session.field_write(self._path, value, map, **more)

    def set(self, value: Value, **more: Any) -> Event:
        """Session.set"""
        return self._session.set(self._path, value, **more)

    def hw(self, value: Value, **more: Any) -> Event:
        """Session.hw"""
        return self._session.hw(self._path, value, **more)

    def expect(self, value: Value, **more: Any) -> Event:
        """Session.expect"""
        return self._session.expect(self._path, value, **more)

    def wait(self, value: Value, **more: Any) -> Event:
        """Session.wait, for all bits of the field."""
        return self._session.wait(self._path, None, value, **more)

    def named(self) -> Optional[str]:
        """Reads it over the bus: the name of its value, if the notes have one."""
        return self._names.fields[self._path][1].named(int(self))

    @property
    def mirrored(self) -> int:
        """The mirrored value; nothing is sent."""
        register, field = self._names.fields[self._path]
        return field.value_of(self._session.mirrored(register))


class MemoryView(View):
    """A memory. `m[3]` reads a location over the bus, `m[3:7]` a burst, and an assignment writes."""

    def __len__(self) -> int:
        return self._names.memories[self._path].size

    def __iter__(self) -> Iterator[int]:
        return (self[index] for index in range(len(self)))

    def __getitem__(self, index: Any) -> Any:
        if isinstance(index, slice):
            first, last, step = index.indices(len(self))
            if step != 1:
                raise ValueError("a burst has the step 1")
            return self._session.burst_read(self._path, first, last - first).values
        return int(self._session.mem_read(self._path, index))

    def __setitem__(self, index: Any, value: Any) -> None:
        if isinstance(index, slice):
            first, last, step = index.indices(len(self))
            if step != 1 or len(value) != last - first:
                raise ValueError("a burst has the step 1, and as many values as locations")
            self._session.burst_write(self._path, first, list(value))
        else:
            self._session.mem_write(self._path, index, value)

    def check(self, index: int, value: int, map: Optional[str] = None, **more: Any) -> Event:
        """Session.mem_check"""
        return self._session.mem_check(self._path, index, value, map, **more)

    def peek(self, index: int, **more: Any) -> Event:
        """Session.mem_peek"""
        return self._session.mem_peek(self._path, index, **more)

    def poke(self, index: int, value: int, **more: Any) -> Event:
        """Session.mem_poke"""
        return self._session.mem_poke(self._path, index, value, **more)


class ArrayView(View):
    """Registers or blocks with one name and a number behind it, by their number."""

    def __len__(self) -> int:
        return len(self._names.arrays[self._path])

    def __iter__(self) -> Iterator[Any]:
        return (self[number] for number in sorted(self._names.arrays[self._path]))

    def __getitem__(self, number: Any) -> Any:
        paths = self._names.arrays[self._path]
        if number not in paths:
            raise IndexError(f"{self._path} has no {number}; it has {sorted(paths)}")
        return view_of(self._session, self._names, paths[number])

    def __setitem__(self, number: Any, value: Any) -> None:
        self[number].write(value)


def view_of(session: "Session", names: "Names", path: str) -> Any:
    """What stands at a path. Raises UnknownName where nothing does."""
    if path in names.registers:
        return RegisterView(session, names, path)
    if path in names.fields:
        return FieldView(session, names, path)
    if path in names.memories:
        return MemoryView(session, names, path)
    if path in names.blocks or path in names.files:
        return Node(session, names, path)
    if path in names.arrays:
        return ArrayView(session, names, path)
    known = (*names.registers, *names.memories, *names.blocks, *names.files, *names.fields)
    names.require(path, known, "name")
    raise UnknownName(path)
