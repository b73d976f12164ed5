"""Makes a description of what a file says: names, policies, overlaps, limits, maps and places."""

from __future__ import annotations

import re
from bisect import bisect_left, bisect_right
from dataclasses import dataclass, field
from typing import Dict, Iterator, List, Optional, Sequence, Set, Tuple, Union

from . import names, policy, source
from .choice import Choice, matches
from .errors import SourceError
from .report import CHANGED, LEFT_OUT, Report

MOST_REGISTERS = 1_024
MOST_MEMORIES = 64
MOST_LOCATIONS = 65_536
MOST_BLOCKS = 256
MOST_FILES = 256
MOST_MAPS = 64
MOST_PLACES = 4_096
MOST_WORDS = 1_048_576
MOST_KINDS = 16
MOST_NAMES = 8
ADDRESSES = 2**64
APB_ADDRESSES = 2**32

TESTS = (
    "NO_REG_TESTS",
    "NO_REG_HW_RESET_TEST",
    "NO_REG_BIT_BASH_TEST",
    "NO_REG_ACCESS_TEST",
    "NO_REG_SHARED_ACCESS_TEST",
)


@dataclass
class FieldRow:
    """A field of the description; `origin` is its name in the file."""

    name: str
    lsb: int
    width: int
    policy: str
    volatile: bool
    compare: bool
    resets: Dict[str, int]
    origin: str
    text: str
    values: List[source.EnumeratedValue]


@dataclass
class PlaceRow:
    """A place of an item in a map."""

    map: str
    offset: int
    rights: str = "rw"


@dataclass
class RegRow:
    """A register of the description."""

    name: str
    of: str
    bytes: int
    skip: List[str]
    fields: List[FieldRow]
    origin: str
    text: str
    places: List[PlaceRow] = field(default_factory=list)


@dataclass
class MemRow:
    """A memory of the description; its address is for the comment."""

    name: str
    of: str
    bytes: int
    size: int
    access: str
    skip: List[str]
    origin: str
    text: str
    address: int
    places: List[PlaceRow] = field(default_factory=list)


@dataclass
class FileRow:
    """A register file of the description; its offset is for the comment."""

    name: str
    of: str
    offset: int
    origin: str
    text: str


@dataclass
class BlockRow:
    """A block of the description; its address is for the comment."""

    name: str
    of: str
    address: Optional[int]
    origin: str
    text: str


@dataclass
class MapRow:
    """A map of the description."""

    name: str
    bytes: int
    addressing: str = "byte"
    endian: str = "little"
    adapter: str = "plain"
    base: int = 0
    parent: str = ""
    offset: int = 0
    text: str = ""


@dataclass
class Section:
    """What stands together: blocks, then maps, then files, registers and memories with their places."""

    blocks: List[BlockRow] = field(default_factory=list)
    maps: List[MapRow] = field(default_factory=list)
    items: List[Union[FileRow, RegRow, MemRow]] = field(default_factory=list)


@dataclass
class Description:
    """The whole description, in the order in which it is written."""

    name: str
    format: str
    text: str
    sections: List[Section] = field(default_factory=list)


@dataclass
class Options:
    """What the command line says beside the choice."""

    adapter: str = ""
    base: int = 0
    volatile: Sequence[str] = ()


_Thing = Union[source.Register, source.Memory]


@dataclass
class _Item:
    """A register or memory on its way: its path in the file, its names, where it stands."""

    thing: _Thing
    raw: str
    path: List[str]
    offset: int
    address: int
    length: int
    order: Tuple[int, int]
    rights: str


@dataclass
class _Entry:
    """A block, or a memory that stands in no block."""

    thing: Union[source.Block, source.Memory]
    raw: str
    path: List[str]
    address: int
    bytes: int
    order: int
    items: List[_Item] = field(default_factory=list)
    files: List[Tuple[List[str], source.Group, int]] = field(default_factory=list)


@dataclass
class _Room:
    """What of the limits is used."""

    registers: int = 0
    memories: int = 0
    locations: int = 0
    blocks: int = 0
    files: int = 0
    places: int = 0
    words: int = 0


class _Shaper:
    def __init__(self, chip: source.Chip, report: Report, choice: Choice, options: Options) -> None:
        self.chip = chip
        self.report = report
        self.choice = choice
        self.options = options
        self.room = _Room()
        self.kinds: Dict[str, str] = {}
        self.apb: Dict[int, bool] = {}
        self.order = 0
        self.not_chosen = 0
        self.met: Set[str] = set()

    def description(self) -> Description:
        spaces = [space for space in self.chip.spaces if self._unit(space)]
        self._kind_names()
        entries = self._entries(spaces)
        self._choose_adapters(spaces, entries)
        self.room.blocks = len(spaces) if self.chip.nested else 0
        for space, of_space in zip(spaces, entries):
            for entry in of_space:
                self._items(space, entry)
            self._overlaps(space, of_space)
        entries = [self._limits(space, of_space) for space, of_space in zip(spaces, entries)]
        if self.not_chosen:
            self.report.noted(0, "", self._not_chosen())
        result = Description(self.chip.name, self.chip.format, self.chip.text)
        if not any(entries):
            return result
        self._sections(result, spaces, entries)
        for like in self.options.volatile:
            if like not in self.met:
                self.report.noted(0, "", f"--volatile `{like}`: no field is like it")
        return result

    def _not_chosen(self) -> str:
        return f"{self.not_chosen:,} registers weren't chosen by --address"

    def nothing(self) -> SourceError:
        """The refusal of a file of which nothing is left, with the first reason."""
        text = "nothing of it can be imported"
        if self.not_chosen:
            return SourceError(f"{text}: {self._not_chosen()}")
        reasons = [one for one in self.report.entries if one.kind != CHANGED]
        if not reasons:
            return SourceError(text)
        first = min(reasons, key=lambda one: (one.kind != LEFT_OUT, one.line))
        where = f"{first.where}: " if first.where else ""
        return SourceError(f"{text}: {where}{first.text}", first.line)

    # Spaces, reset kinds, names of blocks

    def _unit(self, space: source.Space) -> bool:
        if space.unit not in (8, 16, 32, 64):
            text = f"an address unit of {space.unit} bits isn't 8, 16, 32 or 64"
            self.report.left_out(space.line, space.name, text)
            return False
        if space.unit > 8:
            text = f"an address counts words of {space.unit} bits: its maps are word-addressed"
            self.report.noted(space.line, space.name, text)
        return True

    def _kind_names(self) -> None:
        wanted = {kind for field_ in _fields(self.chip) for kind in field_.resets}
        others = sorted(wanted - {source.HARD, "SOFT"})
        self.kinds = {source.HARD: source.HARD, "SOFT": "SOFT"}
        given = names.choose(others, self.kinds.values())
        for kind, name in list(zip(others, given))[: MOST_KINDS - 2]:
            self.kinds[kind] = name
            if name != kind:
                self.report.changed(0, "", f"the reset kind `{kind}` has the name {name}")
        for kind in others[MOST_KINDS - 2 :]:
            self.report.left_out(
                0, "", f"the reset kind `{kind}` is past the {MOST_KINDS} there are"
            )

    def _entries(self, spaces: Sequence[source.Space]) -> List[List[_Entry]]:
        """The blocks and memories of each space by address, with their names."""
        result: List[List[_Entry]] = []
        several = self.chip.nested
        outer = names.choose([space.name for space in spaces]) if several else [""] * len(spaces)
        used: List[str] = []
        for space, of in zip(spaces, outer):
            order = {id(thing): at for at, thing in enumerate(space.blocks)}
            things = sorted(space.blocks, key=lambda one: (one.offset, one.name))
            given = names.choose([thing.name for thing in things], () if several else used)
            used += given
            entries: List[_Entry] = []
            for thing, name in zip(things, given):
                raw = f"{space.name}.{thing.name}" if several else thing.name
                self._renamed(thing.line, raw, thing.name, name)
                address = thing.offset + self.options.base
                path = [of, name] if of else [name]
                bytes_ = self._bytes(space, thing, raw)
                entries.append(_Entry(thing, raw, path, address, bytes_, order[id(thing)]))
            result.append(entries)
        return result

    def _bytes(
        self, space: source.Space, thing: Union[source.Block, source.Memory], raw: str
    ) -> int:
        """The width of the map of a block or memory."""
        if space.unit > 8:
            return space.unit // 8
        bits = thing.bits or space.bits
        fits = next((bytes_ for bytes_ in (1, 2, 4, 8) if bits <= 8 * bytes_), 8)
        if bits != 8 * fits:
            self.report.changed(
                thing.line, raw, f"a width of {bits} bits: its map has {fits} bytes"
            )
        return fits

    def _renamed(self, line: int, where: str, raw: str, name: str) -> None:
        if name != re.sub(r"\[(\w+)\]", r"_\1", raw):
            self.report.changed(line, where, f"`{raw}` has the name {name}")

    # Registers and memories of a block

    def _items(self, space: source.Space, entry: _Entry) -> None:
        if isinstance(entry.thing, source.Memory):
            self._add(space, entry, entry.thing, entry.raw, entry.path, 0)
        else:
            self._walk(space, entry, entry.thing.items, entry.raw, entry.path, 0)

    def _walk(
        self,
        space: source.Space,
        entry: _Entry,
        items: Sequence[source.Item],
        raw: str,
        path: List[str],
        offset: int,
    ) -> None:
        ordered = sorted(items, key=lambda one: (one.offset, one.name))
        given = names.choose([item.name for item in ordered])
        order = {id(item): self.order + at for at, item in enumerate(items)}
        self.order += len(items)
        for item, name in zip(ordered, given):
            inner, where = [*path, name], f"{raw}.{item.name}"
            self._renamed(item.line, where, item.name, name)
            if len(inner) > MOST_NAMES:
                self.report.left_out(item.line, where, f"a path of more than {MOST_NAMES} names")
            elif isinstance(item, source.Group):
                entry.files.append((inner, item, offset + item.offset))
                self._walk(space, entry, item.items, where, inner, offset + item.offset)
            else:
                self._add(space, entry, item, where, inner, offset + item.offset, order[id(item)])

    def _add(
        self,
        space: source.Space,
        entry: _Entry,
        thing: _Thing,
        raw: str,
        path: List[str],
        offset: int,
        order: int = 0,
    ) -> None:
        """Takes a register or memory where a description can have one like it."""
        wrong = self._wrong(space, entry, thing, offset)
        if wrong:
            self.report.left_out(thing.line, raw, wrong)
            return
        length = _words(thing, entry) * (entry.bytes if space.unit == 8 else 1)
        if isinstance(thing, source.Register) and space.unit == 8:
            length = _bytes_of(thing)
        address = entry.address + offset
        if not self.choice.address(address, address + length - 1):
            self.not_chosen += 1
        elif address + length > (APB_ADDRESSES if self.apb[id(space)] else ADDRESSES):
            self.report.left_out(
                thing.line, raw, f"the address {address:#x} is above the bus's last"
            )
        else:
            begins = (entry.order, order)
            item = _Item(thing, raw, path, offset, address, length, begins, thing.rights)
            entry.items.append(item)

    def _wrong(self, space: source.Space, entry: _Entry, thing: _Thing, offset: int) -> str:
        """Why a description can't have it, or nothing."""
        if not 1 <= thing.bits <= 64:
            return f"it has {thing.bits:,} bits; a register or location has 1 to 64"
        if isinstance(thing, source.Memory):
            if not 1 <= thing.size <= MOST_LOCATIONS:
                return (
                    f"{thing.size:,} locations; a description has at most {MOST_LOCATIONS:,} in all"
                )
        if isinstance(thing, source.Register) and not self._is_readable(thing):
            return "it has no field that a description can have"
        if space.unit > 8:
            return ""
        step = min(entry.bytes, 1 << (_bytes_of(thing) - 1).bit_length())
        if self.apb[id(space)]:
            step = entry.bytes
        if (entry.address + offset) % step:
            hint = "; --adapter plain has it" if self.apb[id(space)] else ""
            return f"unaligned: {entry.address + offset:#x} isn't a multiple of {step}{hint}"
        return ""

    @staticmethod
    def _is_readable(register: source.Register) -> bool:
        return any(
            _fits(one, register) and one.access != policy.NO_ACCESS for one in register.fields
        )

    def _choose_adapters(
        self, spaces: Sequence[source.Space], entries: Sequence[Sequence[_Entry]]
    ) -> None:
        """Which spaces have apb ports; apb carries 1, 2 or 4 bytes and all maps below have its width."""
        for space, of_space in zip(spaces, entries):
            wanted = [self.options.adapter or port.adapter for port in space.ports]
            widths = {entry.bytes for entry in of_space}
            self.apb[id(space)] = "apb" in wanted and len(widths) == 1 and max(widths) <= 4
            if "apb" in wanted and widths and not self.apb[id(space)]:
                text = "over apb all blocks have one width of at most 4 bytes: plain stands in"
                self.report.changed(space.line, space.name, text)

    def adapter(self, space: source.Space, port: source.Port) -> str:
        """The adapter of a port."""
        return (self.options.adapter or port.adapter) if self.apb[id(space)] else "plain"

    # Overlaps

    def _overlaps(self, space: source.Space, entries: Sequence[_Entry]) -> None:
        """Where items share addresses, keeps the first or the named one, or a pair for read and write."""
        items = [item for entry in entries for item in entry.items]
        kept: Dict[int, bool] = {id(item): True for item in items}
        for cluster in _clusters(items):
            for item in self._outvoted(cluster):
                kept[id(item)] = False
        for entry in entries:
            entry.items = [item for item in entry.items if kept[id(item)]]

    def _outvoted(self, cluster: List[_Item]) -> Iterator[_Item]:
        taken = {id(item): self.choice.take(item.raw) for item in cluster}
        cluster.sort(key=lambda item: (not taken[id(item)], item.order))
        chosen = _Chosen()
        for item in cluster:
            others = chosen.overlapping(item)
            if not others or (len(others) == 1 and _make_pair(others[0], item)):
                chosen.add(item)
                continue
            text = f"at {item.address:#x} it overlaps {others[0].raw}; --take '{item.raw}' has it instead"
            self.report.left_out(item.thing.line, item.raw, text)
            yield item

    # Limits

    def _limits(self, space: source.Space, entries: List[_Entry]) -> List[_Entry]:
        """The entries that a description has room for, whole ones in order of address."""
        result: List[_Entry] = []
        for entry in entries:
            ports = len(space.ports)
            if not entry.items:
                continue
            if not self.room.places:
                self._shorten(entry, ports)
            reason = self._no_room(entry, ports)
            if reason:
                count = len(entry.items)
                text = f"its {count:,} registers and memories: {reason}; choose by --block or --address"
                self.report.left_out(entry.thing.line, entry.raw, text)
            else:
                result.append(entry)
        return result

    def _shorten(self, entry: _Entry, ports: int) -> None:
        entry.items.sort(key=lambda item: item.address)
        most = min(MOST_REGISTERS, MOST_PLACES // ports)
        rest = entry.items[most:]
        if rest:
            text = f"{len(rest):,} registers from {rest[0].address:#x} on are past the limit of {most:,}"
            self.report.left_out(entry.thing.line, entry.raw, f"{text}; choose by --address")
        entry.items = entry.items[:most]

    def _no_room(self, entry: _Entry, ports: int) -> str:
        """Takes the room that an entry needs, or says of what there is too little."""
        memories = [item.thing for item in entry.items if isinstance(item.thing, source.Memory)]
        files = {tuple(path) for path, _, _ in entry.files}
        words = sum(_words(item.thing, entry) for item in entry.items)
        wanted = _Room(
            len(entry.items) - len(memories),
            len(memories),
            sum(memory.size for memory in memories),
            int(isinstance(entry.thing, source.Block)),
            len(files),
            len(entry.items) * ports,
            words * ports,
        )
        for name, most in _MOST.items():
            if getattr(self.room, name) + getattr(wanted, name) > most:
                return f"a description has at most {most:,} {name}"
        for name in _MOST:
            setattr(self.room, name, getattr(self.room, name) + getattr(wanted, name))
        return ""

    # Rows

    def _sections(
        self, result: Description, spaces: Sequence[source.Space], entries: List[List[_Entry]]
    ) -> None:
        pairs = [(space, of_space) for space, of_space in zip(spaces, entries) if of_space]
        maps = _Maps(self, pairs)
        for space, of_space in pairs:
            outer = Section(maps=maps.roots[id(space)])
            if len(of_space[0].path) > 1:
                outer.blocks.append(BlockRow(of_space[0].path[0], "", None, space.name, space.text))
            sections = [self._section(entry, maps) for entry in of_space]
            if len(sections) == 1 and not outer.blocks:
                sections[0].maps = outer.maps + sections[0].maps
            else:
                result.sections.append(outer)
            result.sections += sections

    def _section(self, entry: _Entry, maps: "_Maps") -> Section:
        section = Section(maps=maps.children.get(id(entry), []))
        of = ".".join(entry.path[:-1])
        if isinstance(entry.thing, source.Block):
            thing = entry.thing
            row = BlockRow(entry.path[-1], of, entry.address, thing.name, thing.text)
            section.blocks.append(row)
        rows: List[Tuple[int, int, List[str], Union[FileRow, RegRow, MemRow]]] = []
        used = {tuple(item.path[:at]) for item in entry.items for at in range(len(item.path))}
        for path, group, offset in entry.files:
            if tuple(path) in used:
                file = FileRow(path[-1], ".".join(path[:-1]), offset, group.name, group.text)
                rows.append((offset, 0, path, file))
        for item in entry.items:
            made = self._row(item)
            made.places = maps.places(entry, item)
            rows.append((item.offset, 1, item.path, made))
        rows.sort(key=lambda one: one[:3])
        section.items = [one[3] for one in rows]
        return section

    def _row(self, item: _Item) -> Union[RegRow, MemRow]:
        thing, of, name = item.thing, ".".join(item.path[:-1]), item.path[-1]
        if isinstance(thing, source.Memory):
            row = MemRow(name, of, _bytes_of(thing), thing.size, thing.access, [], "", "", 0)
            row.skip, row.origin, row.text = sorted(thing.skip), thing.name, thing.text
            row.address = item.address
            return row
        skip = set(thing.skip)
        fields = self._field_rows(item, thing, skip)
        if "NO_REG_TESTS" in skip:
            skip = {"NO_REG_TESTS"}
        listed = [test for test in TESTS if test in skip]
        return RegRow(name, of, _bytes_of(thing), listed, fields, thing.name, thing.text)

    def _field_rows(self, item: _Item, register: source.Register, skip: Set[str]) -> List[FieldRow]:
        fields = sorted(self._kept_fields(item, register), key=lambda one: one.lsb)
        given = names.choose([one.name for one in fields])
        rows: List[FieldRow] = []
        for one, name in zip(fields, given):
            where = f"{item.raw}.{one.name}"
            self._renamed(one.line, where, one.name, name)
            rows.append(self._field_row(one, name, where, skip))
        return rows

    def _kept_fields(self, item: _Item, register: source.Register) -> List[source.Field]:
        """The fields that a description can have; of those that overlap the first or the named one."""
        kept: List[source.Field] = []
        used = 0
        paths = {id(one): f"{item.raw}.{one.name}" for one in register.fields}
        for one in sorted(register.fields, key=lambda one: not self.choice.take(paths[id(one)])):
            where = paths[id(one)]
            if not _fits(one, register):
                text = f"its bits {one.lsb + one.width - 1}:{one.lsb} are outside its register"
                self.report.left_out(one.line, where, text)
            elif one.access == policy.NO_ACCESS:
                self.report.noted(one.line, where, "no access: no field")
            elif used & _mask(one):
                first = next(other for other in kept if _mask(other) & _mask(one))
                text = f"it overlaps {first.name}; --take '{where}' has it instead"
                self.report.left_out(one.line, where, text)
            else:
                used |= _mask(one)
                kept.append(one)
        return kept

    def _is_volatile(self, one: source.Field, where: str) -> bool:
        """Whether the file or the command line says that the device changes a field by itself."""
        meets = [like for like in self.options.volatile if matches(where, like)]
        self.met.update(meets)
        if meets and not one.volatile:
            self.report.changed(one.line, where, "volatile, as --volatile says")
        return one.volatile or bool(meets)

    def _field_row(self, one: source.Field, name: str, where: str, skip: Set[str]) -> FieldRow:
        volatile = self._is_volatile(one, where)
        choice = policy.choose(one.access, one.write, one.read)
        if not choice.exact:
            text = f"no policy for ({one.access}, write {one.write}, read {one.read}): "
            text += f"{choice.policy} stands in, not compared"
            self.report.left_out(one.line, where, text)
        resets = self._resets(one, where)
        compare = choice.exact and not volatile
        if compare and source.HARD not in resets and choice.policy not in policy.WRITE_ONLY:
            if choice.policy in policy.DECIDED_BY_WRITE:
                skip.add("NO_REG_HW_RESET_TEST")
                text = "no reset value: hw-reset leaves its register out"
            else:
                compare = False
                text = "no reset value: not compared"
            self.report.changed(one.line, where, text)
        row = FieldRow(
            name, one.lsb, one.width, choice.policy, volatile, compare, resets, "", "", []
        )
        row.origin, row.text, row.values = one.name, one.text, one.values
        return row

    def _resets(self, one: source.Field, where: str) -> Dict[str, int]:
        ones = (1 << one.width) - 1
        result: Dict[str, int] = {}
        for kind, reset in sorted(one.resets.items()):
            if reset.known == ones and reset.value > ones:
                self.report.left_out(
                    one.line, where, f"its reset value {reset.value:#x} is too wide"
                )
            elif reset.known == ones and kind in self.kinds:
                result[self.kinds[kind]] = reset.value
            elif reset.known:
                text = f"of its {kind} reset value only the bits {reset.known:#x} are known: none is described"
                self.report.left_out(one.line, where, text)
        return result


_MOST = {
    "registers": MOST_REGISTERS,
    "memories": MOST_MEMORIES,
    "locations": MOST_LOCATIONS,
    "blocks": MOST_BLOCKS,
    "files": MOST_FILES,
    "places": MOST_PLACES,
    "words": MOST_WORDS,
}


class _Maps:
    """The maps: a root for each port of a space, and below it one for each block, where there are several."""

    def __init__(self, shaper: _Shaper, pairs: Sequence[Tuple[source.Space, List[_Entry]]]) -> None:
        self.shaper = shaper
        self.pairs = pairs
        self.roots: Dict[int, List[MapRow]] = {}
        self.children: Dict[int, List[MapRow]] = {}
        self._held: Dict[int, List[Tuple[str, int]]] = {}
        roots = sum(len(space.ports) for space, _ in pairs)
        children = sum(len(space.ports) * len(of) for space, of in pairs if len(of) > 1)
        self.flat = roots + children > MOST_MAPS
        if len(self._wanted()) > MOST_MAPS:
            raise SourceError(f"a description has at most {MOST_MAPS} maps: choose by --block")
        given = iter(names.choose(self._wanted()))
        for space, _ in pairs:
            self.roots[id(space)] = [self._root(space, port, next(given)) for port in space.ports]
        for space, of in pairs:
            for entry in of:
                self._hold(space, of, entry, given)

    def _wanted(self) -> List[str]:
        """The wanted names of all maps, the roots first."""
        wanted = [port.name for space, _ in self.pairs for port in space.ports]
        for space, of in self.pairs:
            for entry in of:
                for at, port in enumerate(space.ports):
                    if self._is_child(of, entry):
                        wanted.append(f"{port.name}_{entry.path[-1]}" if at else entry.path[-1])
        return wanted

    def _is_child(self, of: List[_Entry], entry: _Entry) -> bool:
        if self.flat and isinstance(entry.thing, source.Block):
            return False
        return entry.bytes != self._width(of) or (len(of) > 1 and not self.flat)

    @staticmethod
    def _width(of: Sequence[_Entry]) -> int:
        return max(entry.bytes for entry in of)

    def _root(self, space: source.Space, port: source.Port, name: str) -> MapRow:
        of = next(of for one, of in self.pairs if one is space)
        row = MapRow(name, self._width(of), text=space.text)
        row.addressing = "word" if space.unit > 8 else "byte"
        row.endian, row.adapter = port.endian, self.shaper.adapter(space, port)
        row.base = of[0].address if len(of) == 1 else self.shaper.options.base
        return row

    def _hold(
        self, space: source.Space, of: List[_Entry], entry: _Entry, given: Iterator[str]
    ) -> None:
        """The map of an entry below each port, and where its items begin in it."""
        held: List[Tuple[str, int]] = []
        children: List[MapRow] = []
        for root in self.roots[id(space)]:
            offset = entry.address - root.base
            if self._is_child(of, entry):
                row = MapRow(next(given), entry.bytes, root.addressing, root.endian)
                row.parent, row.offset = root.name, offset
                children.append(row)
                held.append((row.name, 0))
            else:
                held.append((root.name, offset))
        self.children[id(entry)] = children
        self._held[id(entry)] = held

    def places(self, entry: _Entry, item: _Item) -> List[PlaceRow]:
        """The places of an item, one below each port."""
        held = self._held[id(entry)]
        return [PlaceRow(name, begin + item.offset, item.rights) for name, begin in held]


def _bytes_of(thing: _Thing) -> int:
    return -(-thing.bits // 8)


def _words(thing: _Thing, entry: _Entry) -> int:
    """How many words of its map an item has."""
    words = -(-_bytes_of(thing) // entry.bytes)
    return words * thing.size if isinstance(thing, source.Memory) else words


def _mask(one: source.Field) -> int:
    return ((1 << one.width) - 1) << one.lsb


def _fits(one: source.Field, register: source.Register) -> bool:
    return 1 <= one.width <= 64 and 0 <= one.lsb and one.lsb + one.width <= 8 * _bytes_of(register)


class _Chosen:
    """Items that don't overlap, but for pairs at one address; by address."""

    def __init__(self) -> None:
        self.starts: List[int] = []
        self.items: List[_Item] = []

    def add(self, item: _Item) -> None:
        """Puts an item in."""
        at = bisect_right(self.starts, item.address)
        self.starts.insert(at, item.address)
        self.items.insert(at, item)

    def overlapping(self, item: _Item) -> List[_Item]:
        """The first two items that share an address with this one, or fewer."""
        end = bisect_left(self.starts, item.address + item.length)
        begin = bisect_left(self.starts, item.address)
        while begin and self.items[begin - 1].address + self.items[begin - 1].length > item.address:
            begin -= 1
        return self.items[begin : min(end, begin + 2)]


def _side(item: _Item) -> str:
    """Whether an item is only read, only written, or both."""
    if item.rights != "rw" or isinstance(item.thing, source.Memory):
        return item.rights
    sides = {
        policy.rights(one.access) for one in item.thing.fields if one.access != policy.NO_ACCESS
    }
    return sides.pop() if len(sides) == 1 else "rw"


def _make_pair(one: _Item, other: _Item) -> bool:
    """Gives two items of one address the rights of a pair, where one is only read, the other only written."""
    if (one.address, one.length) != (other.address, other.length):
        return False
    if {_side(one), _side(other)} != {"ro", "wo"}:
        return False
    one.rights, other.rights = _side(one), _side(other)
    return True


def _clusters(items: Sequence[_Item]) -> Iterator[List[_Item]]:
    """The groups of two or more items whose addresses run into each other."""
    ordered = sorted(items, key=lambda item: item.address)
    cluster: List[_Item] = []
    end = -1
    for item in ordered:
        if item.address >= end:
            if len(cluster) > 1:
                yield cluster
            cluster = []
        cluster.append(item)
        end = max(end, item.address + item.length)
    if len(cluster) > 1:
        yield cluster


def _fields(chip: source.Chip) -> Iterator[source.Field]:
    """All fields of a chip."""
    waiting: List[Union[source.Item, source.Block]] = [
        one for space in chip.spaces for one in space.blocks
    ]
    while waiting:
        thing = waiting.pop()
        if isinstance(thing, source.Register):
            yield from thing.fields
        elif not isinstance(thing, source.Memory):
            waiting.extend(thing.items)


def shape(
    chip: source.Chip, report: Report, choice: Choice, options: Optional[Options] = None
) -> Description:
    """The description of what a file says. Raises SourceError where nothing is left."""
    shaper = _Shaper(chip, report, choice, options or Options())
    result = shaper.description()
    rows = [item for section in result.sections for item in section.items]
    registers = [row for row in rows if isinstance(row, RegRow)]
    report.counts = {
        "blocks": sum(len(section.blocks) for section in result.sections),
        "registers": len(registers),
        "fields": sum(len(row.fields) for row in registers),
        "memories": sum(isinstance(row, MemRow) for row in rows),
    }
    if not registers and not report.counts["memories"]:
        raise shaper.nothing()
    return result
