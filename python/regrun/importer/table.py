"""Reads a table: CSV with a header row, one row for each field, or for a register without fields."""

from __future__ import annotations

import csv
import io
import re
from typing import Dict, Iterator, List, Optional, Set, Tuple

from . import numbers, policy, source
from .choice import Choice
from .errors import SourceError
from .report import Report, one_line

HEADER_LINES = 50
MOST_LINES_OF_A_ROW = 10
SEPARATORS = ",;\t|"
MOST_CELLS = 200

# The columns, and the words of a header row that name them, in small letters without blanks and signs.
COLUMNS: Dict[str, str] = {
    "block": "block peripheral module instance unit component ip",
    "register": "register registername reg regname",
    "offset": "offset address addr addressoffset offsetaddress regoffset registeroffset addroffset",
    "size": "size registersize regsize registerwidth regwidth",
    "field": "field fieldname bitfield bitname bitfieldname",
    "bits": "bits bit bitrange range position bitposition bitoffset",
    "msb": "msb",
    "lsb": "lsb",
    "width": "width fieldwidth bitwidth",
    "access": "access type accesstype attribute attr rw mode swaccess policy",
    "reset": "reset resetvalue default defaultvalue resetval initial initialvalue por",
    "volatile": "volatile",
    "description": "description desc comment function meaning remarks note notes",
}
_MEANINGS = {word: column for column, words in COLUMNS.items() for word in words.split()}
_CARRIED = ("block", "register", "offset")


class _Row:
    """A row of the table: the text in each column, and the line of the file."""

    def __init__(self, cells: Dict[str, str], line: int) -> None:
        self.cells = cells
        self.line = line

    def get(self, column: str) -> str:
        return self.cells.get(column, "")

    @property
    def is_of_field(self) -> bool:
        """Whether it says something of a field; else it is the register's own."""
        return any(self.get(column) for column in ("field", "bits", "msb", "lsb"))


class _Rows:
    """The rows below the header."""

    def __init__(self, text: str, report: Report) -> None:
        self.separator, names, skipped = _header(text)
        self.columns = [_column(name) for name in names]
        unread = _unread(names)
        if unread:
            report.noted(skipped + 1, "", f"columns that aren't read: {unread}")
        lines = text.splitlines(keepends=True)
        self.text = "".join(lines[skipped:])
        self.first = skipped

    def __iter__(self) -> Iterator[_Row]:
        reader = csv.reader(io.StringIO(self.text, newline=""), delimiter=self.separator)
        line = self.first + 1
        try:
            for number, cells in enumerate(reader):
                if number and any(cell.strip(" -:=") for cell in cells):
                    if not self._is_header(cells):
                        yield _Row(self._named(cells), line)
                line = self.first + reader.line_num + 1
        except csv.Error as error:
            raise SourceError(f"not a table: {error}", line) from None

    def _is_header(self, cells: List[str]) -> bool:
        """Whether it is the header row once more, as each register of a manual has its own."""
        columns = zip(cells, self.columns)
        return len(cells) == len(self.columns) and all(_column(it) == name for it, name in columns)

    def _named(self, cells: List[str]) -> Dict[str, str]:
        if len(cells) > MOST_CELLS:
            cells = cells[:MOST_CELLS]
        return {
            column: cell.strip().strip("\u00a0")
            for column, cell in zip(self.columns, cells)
            if column and cell.strip()
        }


def _header(text: str) -> Tuple[str, List[str], int]:
    """The separator, the names of the columns, and how many lines stand above the header row."""
    best: Tuple[bool, int, str, List[str], int] = (False, 2, "", [], 0)
    lines = text.splitlines(keepends=True)
    for number, line in enumerate(lines[:HEADER_LINES]):
        for separator in SEPARATORS if len(line) <= 10_000 else "":
            names = _first_row(lines[number : number + MOST_LINES_OF_A_ROW], separator)
            known = {column for column in map(_column, names) if column}
            named = bool(known & {"register", "field"})
            if len(known) > 2 and (named, len(known)) > best[:2]:
                best = (named, len(known), separator, names, number)
    _, _, separator, names, number = best
    if not names:
        raise SourceError(
            "a table with no header row, which names the columns register, offset, field, bits, access, reset,"
            " description; or of a format that isn't read"
        )
    found = set(map(_column, names))
    wanted = [one for one in ("register", "offset") if one not in found]
    if wanted:
        others = _unread(names)
        tail = f"; columns that aren't known: {others}" if others else ""
        raise SourceError(f"the header row has no column `{wanted[0]}`{tail}", number + 1)
    return separator, names, number


def _unread(names: List[str]) -> str:
    """The names of columns that have no meaning here."""
    return ", ".join(f"`{one_line(name)}`" for name in names if name.strip() and not _column(name))


def _first_row(lines: List[str], separator: str) -> List[str]:
    """The first row, which may go on below its line: a spreadsheet breaks a long name of a column, between quotes."""
    try:
        return next(csv.reader(lines, delimiter=separator), [])
    except csv.Error:
        return []


def _column(cell: str) -> str:
    return _MEANINGS.get(re.sub(r"[^a-z]", "", cell.lower()), "")


class _Reader:
    def __init__(self, text: str, report: Report, choice: Choice) -> None:
        self.report = report
        self.choice = choice
        self.rows = list(_Rows(text, report))
        self.hexadecimal = self._column_is_hexadecimal()
        self.blocks: Dict[str, source.Block] = {}
        self.unwanted: Set[str] = set()
        self.begun: Set[str] = set()
        self.register: Optional[source.Register] = None
        self.head: Optional[_Row] = None
        self.fields_named = False
        self.carried: Dict[str, str] = {}

    def _column_is_hexadecimal(self) -> bool:
        """Whether offsets without a prefix are hexadecimal, since one of them has a letter."""
        for row in self.rows:
            offset = row.get("offset")
            if re.fullmatch(r"[0-9a-fA-F]+", offset) and re.search("[a-fA-F]", offset):
                text = f"offsets without 0x are read as hexadecimal, as `{offset}` is one"
                self.report.noted(row.line, "", text)
                return True
        return False

    def chip(self, name: str) -> source.Chip:
        for row in self.rows:
            try:
                self._row(row)
            except numbers.NumberError as error:
                self.report.left_out(row.line, self._where(row), str(error))
        self._close()
        space = source.Space("bus", [], [source.Port("bus")], self._width())
        for block in self.blocks.values():
            if block.items:
                space.blocks.append(block)
        return source.Chip(name, "a table", [space])

    def _width(self) -> int:
        """The width of the bus: that of the widest register, 32 bits at most."""
        items = [item for block in self.blocks.values() for item in block.items]
        bits = max((item.bits for item in items if isinstance(item, source.Register)), default=32)
        return next((width for width in (8, 16) if bits <= width), 32)

    def _where(self, row: _Row) -> str:
        words = [
            row.get("block"),
            row.get("register") or self.carried.get("register", ""),
            row.get("field"),
        ]
        return ".".join(word for word in words if word)

    def _row(self, row: _Row) -> None:
        """A row that names a register begins one; each other row belongs to the one above."""
        named = row.get("register")
        again = named and named == self.carried.get("register") and self._same_place(row)
        if named and not again:
            self._close()
            self._begin(row)
        if self.register is None:
            if self.carried.get("register") not in self.begun:
                raise numbers.NumberError("no register stands above")
            return
        if row.is_of_field:
            self.fields_named = True
            self._field(row)

    def _same_place(self, row: _Row) -> bool:
        return all(
            not row.get(column) or row.get(column) == self.carried.get(column)
            for column in _CARRIED
        )

    def _begin(self, row: _Row) -> None:
        """Begins a register. Raises NumberError."""
        for column in _CARRIED:
            if row.get(column) or column == "offset":
                self.carried[column] = row.get(column)
        name = self.carried["register"]
        self.register = None
        self.begun.add(name)
        block = self._block(self.carried.get("block", ""), row)
        if block is None:
            return
        if not self.carried["offset"]:
            raise numbers.NumberError("no offset")
        offset = numbers.table(self.carried["offset"], self.hexadecimal)
        self.choice.count_item(row.line)
        register = source.Register(name, offset, 0, line=row.line)
        size = row.get("size") or ("" if row.is_of_field else row.get("width"))
        if size:
            register.bits = numbers.table(re.sub(r"(?i)[\s-]*bits?$", "", size))
        if not row.get("field"):
            register.text = row.get("description")
        self.register, self.head, self.fields_named = register, row, False
        block.items.append(register)

    def _block(self, name: str, row: _Row) -> Optional[source.Block]:
        plain = name or "regs"
        if plain not in self.blocks and plain not in self.unwanted:
            if self.choice.block(plain):
                self.blocks[plain] = source.Block(plain, 0, line=row.line)
            else:
                self.unwanted.add(plain)
        return self.blocks.get(plain)

    def _close(self) -> None:
        """Ends a register: its size, its whole field where it has none, its whole reset value."""
        register, head = self.register, self.head
        self.register = None
        if register is None or head is None:
            return
        top = max((one.lsb + one.width for one in register.fields), default=0)
        if not register.bits:
            register.bits = next((width for width in (32, 64) if top <= width), top)
        try:
            if not self.fields_named:
                whole = source.Field("value", 0, register.bits, line=head.line)
                self._access(head.get("access"), head, head, whole)
                register.fields.append(whole)
            if not head.get("field"):
                self._whole_reset(head, register)
        except numbers.NumberError as error:
            self.report.left_out(head.line, self._where(head), str(error))

    def _whole_reset(self, head: _Row, register: source.Register) -> None:
        value = _reset(head.get("reset"))
        for one in register.fields:
            if value is not None and not one.resets and 1 <= one.width <= 64 and one.lsb < 2**16:
                ones = (1 << one.width) - 1
                one.resets[source.HARD] = source.Reset((value >> one.lsb) & ones, ones)

    def _field(self, row: _Row) -> None:
        """Adds a field to the register. Raises NumberError."""
        register, head = self.register, self.head
        assert register is not None and head is not None
        lsb, width = _bits(row)
        self.choice.count_field(row.line)
        name = row.get("field") or f"bits_{lsb}"
        field = source.Field(name, lsb, width, line=row.line, text=row.get("description"))
        if re.fullmatch(r"(?i)(reserved|res\.?|rsvd|-+|unused)", name):
            self.report.noted(row.line, self._where(row), "reserved: no field")
            return
        self._access(row.get("access") or head.get("access"), row, head, field)
        try:
            value = _reset(row.get("reset"))
        except numbers.NumberError as error:
            self.report.left_out(row.line, self._where(row), f"its reset value: {error}")
            value = None
        if value is not None:
            field.resets[source.HARD] = source.Reset(value, (1 << min(width, 64)) - 1)
        register.fields.append(field)

    def _access(self, text: str, row: _Row, head: _Row, field: source.Field) -> None:
        if not text:
            raise numbers.NumberError("no access")
        word = policy.of_word(text)
        if word is None:
            raise numbers.NumberError(f"the access `{text}` isn't known")
        field.access, field.write, field.read = word.triple
        said = (row.get("volatile") or head.get("volatile")).lower()
        field.volatile = word.volatile or said in ("1", "true", "yes", "y", "x", "volatile")
        if word.doubt:
            self.report.noted(row.line, self._where(row), word.doubt)


def _bits(row: _Row) -> Tuple[int, int]:
    """The lowest bit and the width of a row. Raises NumberError."""
    text = re.sub(r"[\[\]() ]", "", row.get("bits"))
    parts = re.split(r":|\.\.|-|\u2013", text)
    if row.get("msb") and row.get("lsb"):
        ends = [numbers.table(row.get("msb")), numbers.table(row.get("lsb"))]
    elif text and len(parts) <= 2:
        ends = [numbers.table(part) for part in parts]
    elif row.get("lsb") and row.get("width"):
        low = numbers.table(row.get("lsb"))
        ends = [low + numbers.table(row.get("width")) - 1, low]
    else:
        raise numbers.NumberError("no bits" if not text else f"bits `{row.get('bits')}`")
    if len(parts) == 1 and row.get("width") and text:
        ends.append(ends[0] + numbers.table(row.get("width")) - 1)
    return min(ends), max(ends) - min(ends) + 1


def _reset(text: str) -> Optional[int]:
    """A reset value, or None where it is left open. Raises NumberError."""
    if not text or re.fullmatch(r"(?i)[-?x]+|undefined|unknown|n/?a|undef\.?|0x[x]+|x+h", text):
        return None
    value = numbers.table(text)
    digits = re.sub("[ _]", "", text)
    if re.fullmatch("0[0-9]+", digits) and value != int(digits, 16):
        raise numbers.NumberError(f"the base of `{text}` isn't known: 0b and 0x tell it")
    return value


def _decoded(data: bytes, report: Report) -> str:
    """The text of a file in UTF-8, in UTF-16 with its mark, as a spreadsheet's "Unicode text" is, or in Windows-1252."""
    marked = data.startswith((b"\xff\xfe", b"\xfe\xff"))
    try:
        return data.decode("utf-16" if marked else "utf-8-sig")
    except UnicodeDecodeError:
        report.noted(0, "", "not UTF-8: read as Windows-1252")
        return data.decode("cp1252", "replace")


def read(data: bytes, report: Report, choice: Choice) -> source.Chip:
    """What a table says. Raises SourceError."""
    text = _decoded(data, report)
    if "\0" in text:
        line = text[: text.index("\0")].count("\n") + 1
        raise SourceError("not a table: it has a byte 0; a spreadsheet is read as CSV", line)
    reader = _Reader(text, report, choice)
    return reader.chip(re.sub(r".*[/\\]|\.[^.]*$", "", report.file) or "table")
