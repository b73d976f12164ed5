"""What a file of any format says of a chip, before it is put into a description.

Offsets and sizes count address units of their space, widths count bits. `line` is the line of the
file, from 1, or 0 where the reader can't tell it. Names and texts are those of the file.
"""

from __future__ import annotations

from dataclasses import dataclass, field
from typing import Dict, List, Set, Union

HARD = "HARD"


@dataclass
class Reset:
    """A reset value of a field, and a mask of the bits that the file knows."""

    value: int
    known: int


@dataclass
class EnumeratedValue:
    """A value of a field that has a name. `value` is as the file spells it."""

    name: str
    value: str
    text: str = ""


@dataclass
class Field:
    """A field. `access`, `write` and `read` are words of the table in policy.py."""

    name: str
    lsb: int
    width: int
    access: str = "read-write"
    write: str = "-"
    read: str = "-"
    volatile: bool = False
    resets: Dict[str, Reset] = field(default_factory=dict)
    values: List[EnumeratedValue] = field(default_factory=list)
    text: str = ""
    line: int = 0


@dataclass
class Register:
    """A register. `rights` is what the bus may do with it: `rw`, `ro` or `wo`."""

    name: str
    offset: int
    bits: int
    fields: List[Field] = field(default_factory=list)
    rights: str = "rw"
    skip: Set[str] = field(default_factory=set)
    text: str = ""
    line: int = 0


@dataclass
class Memory:
    """A memory of `size` locations of `bits` bits each."""

    name: str
    offset: int
    bits: int
    size: int
    access: str = "rw"
    rights: str = "rw"
    skip: Set[str] = field(default_factory=set)
    text: str = ""
    line: int = 0


@dataclass
class Group:
    """A register file or cluster; its items' offsets count from its own."""

    name: str
    offset: int
    items: List["Item"] = field(default_factory=list)
    text: str = ""
    line: int = 0


Item = Union[Register, Group, Memory]


@dataclass
class Block:
    """A block of the chip. `bits` is the width of an access, 0 where it is that of the space."""

    name: str
    offset: int
    items: List[Item] = field(default_factory=list)
    bits: int = 0
    text: str = ""
    line: int = 0


@dataclass
class Port:
    """A bus on which a space is seen."""

    name: str
    adapter: str = "plain"
    endian: str = "little"


@dataclass
class Space:
    """An address space: its blocks and memories, the ports that reach them, its width and its unit."""

    name: str
    blocks: List[Union[Block, Memory]] = field(default_factory=list)
    ports: List[Port] = field(default_factory=list)
    bits: int = 32
    unit: int = 8
    text: str = ""
    line: int = 0


@dataclass
class Chip:
    """The whole file. `format` is its format in words; where `nested`, each space is a block of its own."""

    name: str
    format: str
    spaces: List[Space] = field(default_factory=list)
    text: str = ""
    nested: bool = False
