"""Expected and read values of a register, field by field, side by side."""

from __future__ import annotations

from typing import List, Sequence

from .description import Field, Register
from .errors import FieldDifference


def fields_of(
    register: Register, expected: int, read: int, names: Sequence[str]
) -> List[FieldDifference]:
    """The named fields with what was expected and what was read."""
    return [
        FieldDifference(it.name, it.lsb, it.width, it.value_of(expected), it.value_of(read))
        for it in register.fields
        if it.name in names
    ]


def _bits(field: Field) -> str:
    last = field.lsb + field.width - 1
    return str(last) if field.width == 1 else f"{last}:{field.lsb}"


def _shown(field: Field, word: int) -> str:
    value = field.value_of(word)
    name = field.named(value)
    return f"{value:#x} {name}" if name else f"{value:#x}"


def table(register: Register, expected: int, read: int, names: Sequence[str]) -> str:
    """Each field from the highest bit down, with its bits, what was expected and what was read; `>` marks the named ones."""
    digits = 2 * register.bytes
    rows = [("", "field", "bits", "expected", "read")]
    for field in sorted(register.fields, key=lambda it: -it.lsb):
        mark = ">" if field.name in names else ""
        rows.append((mark, field.name, _bits(field), _shown(field, expected), _shown(field, read)))
    rows.append(
        (
            "",
            "(register)",
            f"{8 * register.bytes - 1}:0",
            f"0x{expected:0{digits}x}",
            f"0x{read:0{digits}x}",
        )
    )
    widths = [max(len(row[column]) for row in rows) for column in range(5)]
    return "\n".join(
        f"  {'  '.join(cell.ljust(wide) for cell, wide in zip(row, widths))}".rstrip()
        for row in rows
    )
