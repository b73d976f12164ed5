"""Descriptions of chips in Python: types of registers and blocks that are used as often as the chip has them.

    ctrl = Register("ctrl", bytes=4, fields=[Field("enable", 0, 1, "RW", reset=0)])
    timer = Block("timer", [ctrl.at(0x0), Register("count", 4, [Field("value", 0, 32, "RO", volatile=True)]).at(0x4)])
    chip = Description()
    apb = chip.map("apb", bytes=4, adapter="apb", base=0x4000_0000)
    chip.add(timer, map=apb, offset=0x000, name="timer", count=2, stride=0x100)
    chip.save("chip.toml")

`save` writes the TOML that the program reads, and beside it `chip.notes.toml` with what that has no place for:
documentation and names of values. Each thing remembers the file and line of Python that made it, and every error names
them. Rows that were written by hand are read with `Description.read`.
"""

from __future__ import annotations

import re
import sys
from pathlib import Path
from typing import Any, Dict, Iterator, List, Mapping, NamedTuple, Optional, Sequence, Tuple, Union

from .errors import DescriptionError, DescriptionRefused

POLICIES = (
    "RO RW RC RS WRC WRS WC WS WSRC WCRS W1C W1S W1T W0C W0S W0T W1SRC W1CRS W0SRC W0CRS WO WOC WOS W1 WO1"
).split()
WRITE_ONLY = frozenset(["WO", "WOC", "WOS", "WO1"])
SKIPS = (
    "NO_REG_TESTS NO_REG_HW_RESET_TEST NO_REG_BIT_BASH_TEST NO_REG_ACCESS_TEST NO_REG_SHARED_ACCESS_TEST NO_MEM_WALK_TEST"
).split()
NAME = re.compile(r"[A-Za-z_][A-Za-z0-9_]{0,31}$")
NUMBER = re.compile(r"(?:[0-9]+|0[xX][0-9A-Fa-f]+)$")
KEYS = ("block", "file", "reg", "mem", "map", "place", "flaw")

MOST_TEXT = 1_048_576

Number = Union[int, str]
Resets = Union[None, int, Mapping[str, Number]]


class Origin(NamedTuple):
    """Where a thing was made; the line is 0 where it isn't known."""

    file: str
    line: int

    def __str__(self) -> str:
        return f"{self.file}:{self.line}" if self.line else self.file


def caller() -> Optional[Origin]:
    """The line outside this package that is being run."""
    frame = sys._getframe(1)
    while frame is not None:
        name = frame.f_globals.get("__name__", "")
        if name != "regrun" and not name.startswith("regrun."):
            return Origin(frame.f_code.co_filename, frame.f_lineno)
        frame = frame.f_back  # type: ignore[assignment]
    return None


def number(value: Any) -> int:
    """A number of a description: an integer, or a text of decimal digits or of 0x and hexadecimal digits."""
    if isinstance(value, str) and NUMBER.match(value):
        return int(value, 16 if value[:2] in ("0x", "0X") else 10)
    if isinstance(value, int) and not isinstance(value, bool):
        return value
    raise ValueError(f"no number: {value!r}")


class _Thing:
    """What is common to the things of a description: checks that name the line of Python."""

    origin: Optional[Origin]

    def _fail(self, text: str) -> DescriptionError:
        return DescriptionError(f"{self.origin}: {text}" if self.origin else text)

    def _name(self, name: Any) -> str:
        if not isinstance(name, str) or not NAME.match(name):
            raise self._fail(
                f"bad name {name!r}: a letter or _, then letters, digits and _, at most 32 characters"
            )
        return name

    def _number(self, what: str, value: Any, least: int, most: int) -> int:
        try:
            found = number(value)
        except ValueError:
            raise self._fail(f"{what} is no number: {value!r}") from None
        if not least <= found <= most:
            raise self._fail(f"{what} is {found}, and must be {least} to {most}")
        return found

    def _one_of(self, what: str, value: Any, choices: Sequence[str]) -> str:
        if value not in choices:
            raise self._fail(f"{what} is {value!r}, and must be one of: {' '.join(choices)}")
        return str(value)

    def _skips(self, skip: Sequence[str]) -> Tuple[str, ...]:
        if isinstance(skip, str):
            raise self._fail(f"skip is a list, and not {skip!r}")
        return tuple(self._one_of("skip", it, SKIPS) for it in skip)


MOST = (1 << 64) - 1


class Field(_Thing):
    """A field of a register.

    `lsb` and `width` count bits. `reset` is its value after a HARD reset, or a mapping from kind to value. `compare` is by
    default the opposite of `volatile`. `values` names values, and `doc` documents. Raises DescriptionError.
    """

    def __init__(
        self,
        name: str,
        lsb: Number,
        width: Number,
        policy: str,
        reset: Resets = None,
        *,
        volatile: bool = False,
        compare: Optional[bool] = None,
        alone: bool = False,
        doc: str = "",
        values: Optional[Mapping[str, int]] = None,
    ) -> None:
        self.origin = caller()
        self.name = self._name(name)
        self.lsb = self._number(f"lsb of {name}", lsb, 0, 63)
        self.width = self._number(f"width of {name}", width, 1, 64)
        self.policy = self._one_of(f"policy of {name}", policy, POLICIES)
        self.volatile, self.alone, self.doc = bool(volatile), bool(alone), doc
        self.compare = (not volatile) if compare is None else bool(compare)
        self.resets = self._resets(reset)
        self.values = {
            self._name(key): self._number(f"value {key} of {name}", it, 0, self.most)
            for key, it in (values or {}).items()
        }

    def _resets(self, reset: Resets) -> Dict[str, int]:
        if reset is None:
            return {}
        kinds = reset if isinstance(reset, Mapping) else {"HARD": reset}
        return {
            self._name(kind): self._number(f"{kind} reset of {self.name}", it, 0, self.most)
            for kind, it in kinds.items()
        }

    @property
    def most(self) -> int:
        """The largest value that it holds."""
        return (1 << self.width) - 1

    @property
    def mask(self) -> int:
        """Its bits in the register."""
        return self.most << self.lsb

    @property
    def compared(self) -> bool:
        """Whether a check compares it."""
        return self.compare and self.policy not in WRITE_ONLY

    def value_of(self, word: int) -> int:
        """Its value in a word of the register."""
        return (word >> self.lsb) & self.most

    def named(self, value: int) -> Optional[str]:
        """The name of a value, if it has one."""
        return next((name for name, it in self.values.items() if it == value), None)


class Placed(NamedTuple):
    """A type that stands in a block or chip: at an offset, under a name, perhaps several times."""

    what: Any
    offset: Optional[int]
    name: str
    times: Optional[int]
    stride: int
    rights: str
    origin: Optional[Origin]


class _Placeable(_Thing):
    name: str

    def at(
        self,
        offset: Optional[int],
        name: Optional[str] = None,
        *,
        count: Optional[int] = None,
        stride: Optional[int] = None,
        rights: str = "rw",
    ) -> Placed:
        """This type at an offset, in the units of the map that it will stand in.

        With `count` it stands there so many times, `stride` apart, as NAME0, NAME1 and so on. `rights` is rw, ro or wo.
        """
        origin = caller()
        self.origin = self.origin or origin
        if count is not None and stride is None and count > 1 and offset is not None:
            raise DescriptionError(f"{origin}: {count} times {self.name} need a stride")
        made = Placed(self, offset, name or self.name, count, stride or 0, rights, origin)
        self._one_of("rights", rights, ("rw", "ro", "wo"))
        return made


class Register(_Placeable):
    """A register type: `bytes` 1 to 8, its fields from any bit on. Raises DescriptionError."""

    def __init__(
        self,
        name: str,
        bytes: Number = 4,
        fields: Sequence[Field] = (),
        *,
        backdoor: bool = True,
        skip: Sequence[str] = (),
        doc: str = "",
    ) -> None:
        self.origin = caller()
        self.name = self._name(name)
        self.bytes = self._number(f"bytes of {name}", bytes, 1, 8)
        self.fields: List[Field] = []
        self.backdoor, self.skip, self.doc = bool(backdoor), self._skips(skip), doc
        for field in fields:
            self.add(field)

    def add(self, field: Field) -> Field:
        """Adds a field. Raises DescriptionError where it doesn't fit, at the field's line."""
        if field.lsb + field.width > 8 * self.bytes:
            raise field._fail(
                f"field {field.name} is outside the {8 * self.bytes} bits of {self.name}"
            )
        for other in self.fields:
            if other.name == field.name:
                raise field._fail(f"register {self.name} has a field {field.name} already")
            if other.mask & field.mask:
                raise field._fail(f"fields {other.name} and {field.name} of {self.name} overlap")
        self.fields.append(field)
        return field

    def field(
        self, name: str, lsb: Number, width: Number, policy: str, reset: Resets = None, **more: Any
    ) -> Field:
        """Makes a field by the words of Field, and adds it."""
        return self.add(Field(name, lsb, width, policy, reset, **more))

    def after_reset(self, kind: str, before: int = 0) -> int:
        """The value after a reset of a kind: each field with a value for it takes it."""
        for field in self.fields:
            if kind in field.resets:
                before = before & ~field.mask | field.resets[kind] << field.lsb
        return before


class Memory(_Placeable):
    """A memory type: `size` locations of `bytes` 1 to 8 each. `access` is rw or ro. Raises DescriptionError."""

    def __init__(
        self,
        name: str,
        bytes: Number,
        size: Number,
        *,
        access: str = "rw",
        backdoor: bool = True,
        skip: Sequence[str] = (),
        doc: str = "",
    ) -> None:
        self.origin = caller()
        self.name = self._name(name)
        self.bytes = self._number(f"bytes of {name}", bytes, 1, 8)
        self.size = self._number(f"size of {name}", size, 1, 65_536)
        self.access = self._one_of(f"access of {name}", access, ("rw", "ro"))
        self.backdoor, self.skip, self.doc = bool(backdoor), self._skips(skip), doc


class Block(_Placeable):
    """A block type: registers, memories, register files and blocks, each at an offset by `at`, or nowhere."""

    key = "block"

    def __init__(
        self,
        name: str,
        members: "Sequence[Union[Placed, Register, Memory, Block]]" = (),
        *,
        doc: str = "",
    ) -> None:
        self.origin = caller()
        self.name = self._name(name)
        self.members: List[Placed] = []
        self.doc = doc
        for member in members:
            self.add(member)

    def add(self, member: "Union[Placed, Register, Memory, Block]") -> Placed:
        """Adds a member."""
        placed = (
            member
            if isinstance(member, Placed)
            else Placed(member, None, member.name, None, 0, "rw", caller())
        )
        self.members.append(placed)
        return placed


class RegisterFile(Block):
    """A register file type: as a block, with registers and files alone."""

    key = "file"


class Map(_Thing):
    """An address map. Without a parent it is a root, a port of the device. Raises DescriptionError."""

    def __init__(
        self,
        name: str,
        bytes: Number,
        *,
        endian: str = "little",
        addressing: str = "byte",
        parent: "Union[None, str, Map]" = None,
        offset: Number = 0,
        base: Number = 0,
        adapter: str = "plain",
        predict: str = "implicit",
    ) -> None:
        self.origin = caller()
        self.name = self._name(name)
        self.bytes = self._number(f"bytes of {name}", bytes, 1, 8)
        self.endian = self._one_of("endian", endian, ("little", "big", "little-fifo", "big-fifo"))
        self.addressing = self._one_of("addressing", addressing, ("byte", "word"))
        self.parent = parent.name if isinstance(parent, Map) else parent
        self.offset = self._number(f"offset of {name}", offset, 0, MOST)
        self.base = self._number(f"base of {name}", base, 0, MOST)
        self.adapter = adapter
        self.predict = self._one_of("predict", predict, ("implicit", "explicit"))


class Row(NamedTuple):
    """A row of the description: its path, and where it was made."""

    path: str
    what: Any
    origin: Optional[Origin]

    @property
    def of(self) -> str:
        """The path of what it stands in."""
        return self.path.rpartition(".")[0]

    @property
    def name(self) -> str:
        """Its own name."""
        return self.path.rpartition(".")[2]


class Description:
    """A chip: rows of blocks, register files, registers, memories, maps, places and flaws, in their order."""

    def __init__(self) -> None:
        self.rows: Dict[str, List[Row]] = {key: [] for key in KEYS}
        self.doc = ""

    # Building.

    def map(self, name: str, bytes: Number, **more: Any) -> Map:
        """Adds an address map, by the words of Map."""
        made = Map(name, bytes, **more)
        self.rows["map"].append(Row(name, made, made.origin))
        return made

    def add(
        self,
        what: "Union[Placed, Register, Memory, Block]",
        *,
        of: str = "",
        map: "Union[None, str, Map]" = None,
        offset: Optional[int] = None,
        name: Optional[str] = None,
        count: Optional[int] = None,
        stride: Optional[int] = None,
        rights: str = "rw",
    ) -> List[str]:
        """Puts a type into the chip, and where `map` is given each of its placed members into that map.

        `of` is the path that it stands in, `offset` where it begins, `count` and `stride` as in `at`. The paths are
        returned, one for each time that it stands there.
        """
        placed = (
            what
            if isinstance(what, Placed)
            else what.at(offset, name, count=count, stride=stride, rights=rights)
        )
        if isinstance(what, Placed) and offset is not None:
            placed = placed._replace(offset=offset + (placed.offset or 0))
        return self._instances(placed, of, map.name if isinstance(map, Map) else map, 0)

    def _instances(
        self, placed: Placed, of: str, map_name: Optional[str], base: Optional[int]
    ) -> List[str]:
        """Makes the rows of a placed type: one, or those of an array."""
        prefix = f"{of}." if of else ""
        names = (
            [placed.name]
            if placed.times is None
            else [f"{placed.name}{it}" for it in range(placed.times)]
        )
        start = None if placed.offset is None or base is None else base + placed.offset
        for turn, name in enumerate(names):
            at = None if start is None else start + turn * placed.stride
            self._instance(placed, prefix + name, map_name, at)
        return [prefix + name for name in names]

    def _instance(
        self, placed: Placed, path: str, map_name: Optional[str], at: Optional[int]
    ) -> None:
        what, origin = placed.what, placed.origin
        if not NAME.match(path.rpartition(".")[2]):
            raise DescriptionError(f"{origin}: bad name {path.rpartition('.')[2]!r}")
        if isinstance(what, Block):
            self.rows[what.key].append(Row(path, what, origin))
            for member in what.members:
                self._instances(member, path, map_name, at)
            return
        self.rows["reg" if isinstance(what, Register) else "mem"].append(
            Row(path, what, what.origin)
        )
        if map_name is not None and at is not None:
            self._place(map_name, path, at, placed.rights, origin)

    def place(
        self, map: Union[str, Map], item: str, offset: Number = 0, rights: str = "rw"
    ) -> None:
        """Puts a register or memory that is there already into a map."""
        self._place(
            map.name if isinstance(map, Map) else map, item, number(offset), rights, caller()
        )

    def _place(
        self, map_name: str, item: str, offset: int, rights: str, origin: Optional[Origin]
    ) -> None:
        row = {"map": map_name, "item": item, "offset": offset, "rights": rights}
        self.rows["place"].append(Row(item, row, origin))

    def flaw(self, kind: str, **keys: Any) -> None:
        """Adds a flaw of the device model, by the keys of its kind (`from` is written `from_`)."""
        row = {"kind": kind, **{key.rstrip("_"): value for key, value in keys.items()}}
        self.rows["flaw"].append(Row(kind, row, caller()))

    def include(self, other: "Union[Description, str, Path]") -> None:
        """Adds all rows of another description, or of a file, behind those that are there."""
        more = other if isinstance(other, Description) else Description.read(other)
        for key in KEYS:
            self.rows[key] += more.rows[key]

    # Looking up.

    @property
    def registers(self) -> Dict[str, Register]:
        """Each register by its path."""
        return {row.path: row.what for row in self.rows["reg"]}

    @property
    def memories(self) -> Dict[str, Memory]:
        """Each memory by its path."""
        return {row.path: row.what for row in self.rows["mem"]}

    @property
    def kinds(self) -> List[str]:
        """The kinds of reset."""
        found = {
            kind: 0
            for reg in self.registers.values()
            for field in reg.fields
            for kind in field.resets
        }
        return list({"HARD": 0, "SOFT": 0, **found})

    # Writing.

    def to_toml(self) -> str:
        """The description as the program reads it: at most 1,048,576 bytes, so a large one has no blanks in its fields."""
        from .toml_rows import tables

        text = "\n".join(tables(self)) + "\n"
        if len(text) > MOST_TEXT:
            text = re.sub(
                r"^    \{.*",
                lambda it: re.sub(r" ?([={},]) ?", r"\1", it[0].strip()),
                text,
                flags=re.M,
            )
        return text

    def notes(self) -> str:
        """What the program has no place for: documentation and names of values, as TOML by path."""
        from .toml_rows import note

        return "\n\n".join(note(path, doc, values) for path, doc, values in self._noted()) + "\n"

    def _noted(self) -> Iterator[Tuple[str, str, Dict[str, int]]]:
        if self.doc:
            yield "", self.doc, {}
        for key in ("block", "file", "reg", "mem"):
            for row in self.rows[key]:
                if row.what is not None and row.what.doc:
                    yield row.path, row.what.doc, {}
                for field in getattr(row.what, "fields", ()):
                    if field.doc or field.values:
                        yield f"{row.path}.{field.name}", field.doc, field.values

    def save(self, path: Union[str, Path]) -> Path:
        """Writes PATH, and where there are notes PATH with `.notes.toml` for its ending. Raises OSError."""
        to = Path(path)
        to.write_text(self.to_toml(), encoding="utf-8")
        if any(True for _ in self._noted()):
            notes_path(to).write_text(self.notes(), encoding="utf-8")
        return to

    # Reading.

    @classmethod
    def read(cls, source: Union[str, Path], notes: Union[None, str, Path] = None) -> "Description":
        """A description from a file of TOML or a session (its part above `---`), or from a text of several lines.

        The notes are by default those in the file beside it that ends in `.notes.toml`. Raises DescriptionError, which
        names the file and line, and OSError.
        """
        from .toml_rows import Reader

        text, file = text_of(source)
        beside = notes_path(Path(file)) if file else None
        if notes is None and beside is not None and beside.exists():
            notes = beside
        return Reader(text, file or "<text>").description(
            text_of(notes)[0] if notes is not None else ""
        )

    @classmethod
    def outline(cls, source: Union[str, Path]) -> "Description":
        """The rows by line and name alone, as far as the source is TOML: enough to name one that is refused."""
        from .toml_rows import Reader

        try:
            text, file = text_of(source)
            return Reader(text, file or "<text>").outline()
        except DescriptionError:
            return cls()

    def check(self, program: Optional[str] = None) -> None:
        """Has the program judge it, without a session. Raises DescriptionRefused, which names the line of Python."""
        from .program import mapped

        self.refusal(mapped(self.to_toml(), program)[-1])

    def refusal(self, line: str, said: str = "", file: str = "") -> None:
        """Raises DescriptionRefused where a line of the log refuses the description or the session.

        `said` is what the program wrote to standard error: its word that is wrong, and its line in `file`.
        """
        found = re.match(r"refused (?:description ?|session)([^:]*): (.*)", line)
        if not found:
            return
        where, reason = found[1], found[2]
        words = where.split()
        origin, name = None, ""
        if len(words) >= 2 and int(words[1]) <= len(self.rows[words[0]]):
            row = self.rows[words[0]][int(words[1]) - 1]
            origin, name = row.origin, row.path
            if len(words) == 4 and row.what is not None:
                field = row.what.fields[int(words[3]) - 1]
                origin, name = field.origin, f"{row.path}.{field.name}"
        told = re.findall(rf"line (\d+): (?:.*: )?{re.escape(reason)}(?:: (.*))?$", said, re.M)
        line_of, detail = told[-1] if told else ("0", "")
        if origin is None and file:
            origin = Origin(file, int(line_of))
        raise DescriptionRefused(where, reason, str(origin) if origin else None, name, detail)


def notes_path(path: Path) -> Path:
    """The file beside a description that has its documentation and names of values."""
    return path.with_name(path.name.partition(".")[0] + ".notes.toml")


def text_of(source: Union[str, Path]) -> Tuple[str, str]:
    """The description in a file or text, and the name of the file. Of a session it is the part above its separator.

    Raises DescriptionError where a file isn't UTF-8, and OSError.
    """
    if isinstance(source, str) and "\n" in source:
        text, file = source, ""
    else:
        file = str(source)
        try:
            text = Path(source).read_text(encoding="utf-8-sig")
        except UnicodeDecodeError as error:
            line = error.object.count(b"\n", 0, error.start) + 1
            raise DescriptionError(f"{file}:{line}: not UTF-8") from None
    lines = text.split("\n")
    cut = next((at for at, line in enumerate(lines) if line in ("---", "---\r")), None)
    return (text if cut is None else "".join(f"{it}\n" for it in lines[:cut])), file
