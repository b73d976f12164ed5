"""Writes a description as TOML, as a person would: block by block, a field a line, names in comments."""

from __future__ import annotations

from typing import Dict, Iterator, List, Union

from .report import Report, one_line
from .shape import (
    BlockRow,
    Description,
    FieldRow,
    FileRow,
    MapRow,
    MemRow,
    PlaceRow,
    RegRow,
    Section,
)

MOST_BYTES = 1_048_576
MOST_COMMENT = 90


def write(description: Description, report: Report, backdoor: bool = True) -> str:
    """The text of a description, without its enumerated values or its comments where it would be too long."""
    for detail, lost in ((2, ""), (1, "the enumerated values"), (0, "all comments")):
        text = "\n".join(_Writer(detail, backdoor).lines(description)) + "\n"
        if len(text.encode("utf-8", "replace")) <= MOST_BYTES:
            break
    if lost:
        report.left_out(
            0, "", f"{lost}, so that the description has no more than {MOST_BYTES:,} bytes"
        )
    if len(text.encode("utf-8", "replace")) > MOST_BYTES:
        report.left_out(
            0, "", f"the description has more than {MOST_BYTES:,} bytes: choose by --block"
        )
    return text


def _comment(*parts: str) -> str:
    """Texts of the file as one comment, cut at a blank."""
    text = one_line(": ".join(part for part in parts if part))
    if len(text) > MOST_COMMENT:
        text = text[:MOST_COMMENT].rpartition(" ")[0] or text[:MOST_COMMENT]
        text += " .."
    return text


def _value(number: int, width: int) -> str:
    """A reset value: one digit as it is, else hexadecimal in the digits of the width."""
    if number < 10 and width <= 4:
        return str(number)
    text = f"0x{number:0{-(-width // 4)}x}"
    return f'"{text}"' if number >= 2**63 else text


def _address(number: int, digits: int = 2) -> str:
    text = f"0x{number:0{digits}x}"
    return f'"{text}"' if number >= 2**63 else text


class _Writer:
    """`detail` 2 writes all, 1 leaves out the enumerated values, 0 all comments."""

    def __init__(self, detail: int, backdoor: bool) -> None:
        self.detail = detail
        self.backdoor = backdoor

    def lines(self, description: Description) -> Iterator[str]:
        name = _comment(description.name, description.text)
        yield f"# {name}"
        yield f"# From {description.format}, by python -m regrun import."
        for section in description.sections:
            yield from self._section(section)

    def _section(self, section: Section) -> Iterator[str]:
        for block in section.blocks:
            yield ""
            yield from self._block(block)
        for row in section.maps:
            yield ""
            yield from self._map(row)
        places = [place for item in section.items for place in getattr(item, "places", [])]
        digits = max([2, *(len(f"{place.offset:x}") for place in places)])
        for item in section.items:
            yield ""
            if isinstance(item, FileRow):
                yield from self._file(item, digits)
            else:
                yield from self._item(item, digits)

    def _head(self, front: str, row: Union[BlockRow, FileRow, RegRow, MemRow]) -> Iterator[str]:
        if self.detail:
            yield f"# {_comment(f'{front}{row.origin}', row.text)}"

    def _block(self, row: BlockRow) -> Iterator[str]:
        front = "" if row.address is None else f"{_address(row.address)} "
        yield from self._head(front, row)
        yield "[[block]]"
        yield from self._named(row.name, row.of)

    def _file(self, row: FileRow, digits: int) -> Iterator[str]:
        yield from self._head(f"{_address(row.offset, digits)} ", row)
        yield "[[file]]"
        yield from self._named(row.name, row.of)

    @staticmethod
    def _named(name: str, of: str) -> Iterator[str]:
        yield f'name = "{name}"'
        if of:
            yield f'of = "{of}"'

    def _map(self, row: MapRow) -> Iterator[str]:
        if row.text and self.detail:
            yield f"# {_comment(row.text)}"
        yield "[[map]]"
        yield f'name = "{row.name}"'
        yield f"bytes = {row.bytes}"
        defaults = MapRow("", 0)
        for key in ("endian", "addressing", "parent", "adapter"):
            value = getattr(row, key)
            if value != getattr(defaults, key) and not (key == "adapter" and row.parent):
                yield f'{key} = "{value}"'
        if row.base and not row.parent:
            yield f"base = {_address(row.base)}"
        if row.parent:
            yield f"offset = {_address(row.offset)}"

    def _item(self, row: Union[RegRow, MemRow], digits: int) -> Iterator[str]:
        begin = row.address if isinstance(row, MemRow) else row.places[0].offset
        yield from self._head(f"{_address(begin, digits)} ", row)
        yield "[[reg]]" if isinstance(row, RegRow) else "[[mem]]"
        yield from self._named(row.name, row.of)
        yield f"bytes = {row.bytes}"
        if isinstance(row, MemRow):
            yield f"size = {row.size}"
            if row.access != "rw":
                yield f'access = "{row.access}"'
        if row.skip:
            yield "skip = [" + ", ".join(f'"{test}"' for test in row.skip) + "]"
        if not self.backdoor:
            yield "backdoor = false"
        if isinstance(row, RegRow):
            yield from self._fields(row)
        path = f"{row.of}.{row.name}" if row.of else row.name
        for place in row.places:
            yield from self._place(place, path, digits)

    @staticmethod
    def _place(place: PlaceRow, path: str, digits: int) -> Iterator[str]:
        yield "[[place]]"
        yield f'map = "{place.map}"'
        yield f'item = "{path}"'
        yield f"offset = {_address(place.offset, digits)}"
        if place.rights != "rw":
            yield f'rights = "{place.rights}"'

    def _fields(self, row: RegRow) -> Iterator[str]:
        yield "field = ["
        for one in row.fields:
            keys = ", ".join(self._keys(one))
            renamed = one.origin if one.origin != one.name else ""
            comment = _comment(renamed, one.text) if self.detail else ""
            yield f"  {{ {keys} }}," + (f"  # {comment}" if comment else "")
            if self.detail > 1:
                for value in one.values:
                    yield f"  #   {_comment(f'{value.value} {value.name}'.strip(), value.text)}"
        yield "]"

    @staticmethod
    def _keys(one: FieldRow) -> List[str]:
        keys = [
            f'name = "{one.name}"',
            f"lsb = {one.lsb}",
            f"width = {one.width}",
            f'policy = "{one.policy}"',
        ]
        if one.volatile:
            keys.append("volatile = true")
        elif not one.compare and not one.policy.startswith("WO"):
            keys.append("compare = false")
        resets: Dict[str, str] = {
            kind: _value(value, one.width) for kind, value in one.resets.items()
        }
        if list(resets) == ["HARD"]:
            keys.append(f"reset = {resets['HARD']}")
        elif resets:
            listed = ", ".join(f"{kind} = {value}" for kind, value in sorted(resets.items()))
            keys.append(f"reset = {{ {listed} }}")
        return keys
