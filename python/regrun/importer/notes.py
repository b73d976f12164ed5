"""Writes what a description has no place for, documentation and names of values, as the notes that a session reads."""

from __future__ import annotations

from typing import Dict, Iterator, Optional, Union

from ..toml_rows import note
from . import names, numbers
from .report import one_line
from .shape import BlockRow, Description, FieldRow, FileRow, MemRow, RegRow


def write(description: Description) -> str:
    """The text of the notes, by path as in the description."""
    return "\n\n".join(_notes(description)) + "\n"


def _notes(description: Description) -> Iterator[str]:
    for section in description.sections:
        for row in (*section.blocks, *section.items):
            path = f"{row.of}.{row.name}" if row.of else row.name
            yield from _of_row(path, row)


def _of_row(path: str, row: Union[BlockRow, FileRow, RegRow, MemRow]) -> Iterator[str]:
    text = one_line(row.text)
    if text:
        yield note(path, text, {})
    for field in row.fields if isinstance(row, RegRow) else ():
        doc, values = one_line(field.text), _values(field)
        if doc or values:
            yield note(f"{path}.{field.name}", doc, values)


def _values(field: FieldRow) -> Dict[str, int]:
    """The enumerated values with a number that the field holds, under names by the rule of names."""
    found = [(value.name, _number(value.value)) for value in field.values]
    held = [(name, at) for name, at in found if at is not None and at < 1 << field.width]
    return dict(zip(names.choose([name for name, _ in held]), (at for _, at in held)))


def _number(text: str) -> Optional[int]:
    """The number of an enumerated value; None for one with bits that don't matter."""
    try:
        return numbers.svd(text)
    except numbers.NumberError:
        pass
    try:
        return numbers.table(text)
    except numbers.NumberError:
        return None
