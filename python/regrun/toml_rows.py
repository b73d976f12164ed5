"""Descriptions as TOML: written as the program reads them, and read with the line of each row."""

from __future__ import annotations

import importlib
import re
import sys
from typing import Any, Dict, Iterator, List, Mapping, Tuple, Union

from .description import (
    KEYS,
    Block,
    Description,
    Field,
    Map,
    Memory,
    Origin,
    Register,
    RegisterFile,
    Row,
    caller,
    number,
)
from .errors import DescriptionError

# Writing TOML.


def _text(value: str) -> str:
    told = value.replace("\\", "\\\\").replace('"', '\\"')
    return '"' + re.sub(r"[\x00-\x1f\x7f]", lambda it: f"\\u{ord(it[0]):04x}", told) + '"'


def _value(value: Any, hexadecimal: bool = False) -> str:
    if isinstance(value, bool):
        return "true" if value else "false"
    if isinstance(value, int):
        if value >= 1 << 63:
            return f'"{value:#x}"'
        return f"{value:#x}" if hexadecimal and value > 9 else str(value)
    if isinstance(value, str):
        return _text(value)
    return "[" + ", ".join(map(_value, value)) + "]"


_HEXADECIMAL = frozenset(["offset", "base", "from", "to", "value"])


def _table(key: str, pairs: Mapping[str, Any]) -> Iterator[str]:
    yield f"\n[[{key}]]"
    for name, value in pairs.items():
        yield f"{name} = {_value(value, name in _HEXADECIMAL)}"


def _named(row: Row) -> Dict[str, Any]:
    return {"name": row.name, **({"of": row.of} if row.of else {})}


def _common(what: Union[Register, Memory]) -> Dict[str, Any]:
    return {
        **({} if what.backdoor else {"backdoor": False}),
        **({"skip": list(what.skip)} if what.skip else {}),
    }


def _field(field: Field) -> str:
    pairs = [
        f"name = {_text(field.name)}, lsb = {field.lsb}, width = {field.width}, policy = {_text(field.policy)}"
    ]
    if field.volatile:
        pairs.append("volatile = true")
    if field.compare == field.volatile:
        pairs.append(f"compare = {_value(field.compare)}")
    if field.alone:
        pairs.append("alone = true")
    if list(field.resets) == ["HARD"]:
        pairs.append(f"reset = {_value(field.resets['HARD'], True)}")
    elif field.resets:
        kinds = ", ".join(f"{kind} = {_value(it, True)}" for kind, it in field.resets.items())
        pairs.append(f"reset = {{ {kinds} }}")
    return f"    {{ {', '.join(pairs)} }},"


def _map(made: Map) -> Dict[str, Any]:
    told: Dict[str, Any] = {"name": made.name, "bytes": made.bytes}
    defaults = (
        ("endian", "little"),
        ("addressing", "byte"),
        ("parent", None),
        ("offset", 0),
        ("base", 0),
    )
    for key, default in (*defaults, ("adapter", "plain"), ("predict", "implicit")):
        if getattr(made, key) != default:
            told[key] = getattr(made, key)
    return told


def tables(chip: Description) -> Iterator[str]:
    yield "# Written by the Python package regrun."
    for key in ("block", "file"):
        for row in chip.rows[key]:
            yield from _table(key, _named(row))
    for row in chip.rows["reg"]:
        yield from _table("reg", {**_named(row), "bytes": row.what.bytes, **_common(row.what)})
        if row.what.fields:
            yield from ("field = [", *map(_field, row.what.fields), "]")
    for row in chip.rows["mem"]:
        access = {} if row.what.access == "rw" else {"access": "ro"}
        sizes = {"bytes": row.what.bytes, "size": row.what.size}
        yield from _table("mem", {**_named(row), **sizes, **access, **_common(row.what)})
    for row in chip.rows["map"]:
        yield from _table("map", _map(row.what))
    for row in chip.rows["place"]:
        defaults = {"offset": 0, "rights": "rw"}
        yield from _table(
            "place", {key: it for key, it in row.what.items() if defaults.get(key) != it}
        )
    for row in chip.rows["flaw"]:
        yield from _table("flaw", row.what)


def note(path: str, doc: str, values: Mapping[str, int]) -> str:
    lines = [f"[{_text(path)}]"]
    if doc:
        lines.append(f"doc = {_text(doc)}")
    if values:
        pairs = (f"{name} = {_value(it, True)}" for name, it in values.items())
        lines.append(f"values = {{ {', '.join(pairs)} }}")
    return "\n".join(lines)


# Reading TOML.


def _loads(text: str, file: str) -> Dict[str, Any]:
    """A text of TOML as data. Raises DescriptionError, which names the file."""
    try:
        toml = importlib.import_module("tomllib" if sys.version_info >= (3, 11) else "tomli")
    except ModuleNotFoundError:
        raise DescriptionError(
            "before Python 3.11 the package tomli is needed to read a description"
        ) from None
    try:
        return dict(toml.loads(text))
    except toml.TOMLDecodeError as error:
        raise DescriptionError(f"{file}: no TOML: {error}") from None


class Reader:
    """Reads the rows of a description, each with its line, where its header tells it."""

    def __init__(self, text: str, file: str) -> None:
        self.file = file
        self.data = _loads(text, file)
        self.headers: Dict[str, List[int]] = {}
        for at, line in enumerate(text.split("\n"), 1):
            found = re.match(r"\s*\[\[\s*([\w.]+)\s*\]\]", line)
            if found:
                self.headers.setdefault(found[1], []).append(at)

    def origin(self, key: str, row: int) -> Origin:
        """The line of a row, counted from 0. The headers tell it where they are as many as the rows."""
        lines = self.headers.get(key, [])
        rows = self.data.get(key, [])
        return Origin(self.file, lines[row] if len(lines) == len(rows) else 0)

    def rows(self, key: str) -> Iterator[Tuple[Origin, Dict[str, Any]]]:
        rows = self.data.get(key, [])
        if not isinstance(rows, list) or not all(isinstance(it, dict) for it in rows):
            raise DescriptionError(f"{self.file}: {key} is no array of tables")
        for at, row in enumerate(rows):
            yield self.origin(key, at), dict(row)

    def outline(self) -> Description:
        """The rows by line and name alone. Raises DescriptionError where they are no rows."""
        made = Description()
        for key in KEYS:
            made.rows[key] = [
                Row(str(row.get("name", "")), None, origin) for origin, row in self.rows(key)
            ]
        return made

    def description(self, notes: str) -> Description:
        made = Description()
        unknown = [key for key in self.data if key not in KEYS]
        if unknown:
            raise DescriptionError(f"{self.file}: unknown key {unknown[0]}")
        told = _loads(notes, f"the notes of {self.file}") if notes else {}
        made.doc = told.get("", {}).get("doc", "")
        readers = {
            "block": self._block,
            "file": self._block,
            "reg": self._register,
            "mem": self._memory,
            "map": self._map,
        }
        for key in KEYS:
            for origin, row in self.rows(key):
                try:
                    self._row(made, key, readers.get(key), origin, row, told)
                except (TypeError, ValueError, KeyError, AttributeError) as error:
                    raise DescriptionError(_at(origin, error)) from None
        return made

    def _row(
        self,
        made: Description,
        key: str,
        reader: Any,
        origin: Origin,
        row: Dict[str, Any],
        told: Any,
    ) -> None:
        if reader is None:
            self._loose(made, key, origin, row)
            return
        if "name" not in row:
            raise DescriptionError("missing key name")
        of = row.pop("of", "") if key != "map" else ""
        path = f"{of}.{row['name']}" if of else row["name"]
        what = reader(key, row, path, told)
        what.origin = origin
        for field in getattr(what, "fields", ()):
            field.origin = origin
        made.rows[key].append(Row(path, what, origin))

    def _loose(self, made: Description, key: str, origin: Origin, row: Dict[str, Any]) -> None:
        """A place or a flaw, which are kept as they are."""
        if key == "place":
            whole = {
                "map": row.pop("map"),
                "item": row.pop("item"),
                "offset": number(row.pop("offset", 0)),
            }
            whole["rights"] = row.pop("rights", "rw")
            if row:
                raise DescriptionError(f"unknown key {next(iter(row))}")
            made.rows[key].append(Row(whole["item"], whole, origin))
        else:
            made.rows[key].append(Row(row["kind"], row, origin))

    def _block(self, key: str, row: Dict[str, Any], path: str, told: Any) -> Block:
        kind = Block if key == "block" else RegisterFile
        return kind(row.pop("name"), doc=told.get(path, {}).get("doc", ""), **row)

    def _register(self, key: str, row: Dict[str, Any], path: str, told: Any) -> Register:
        fields = [self._field(dict(it), path, told) for it in row.pop("field", [])]
        return Register(
            row.pop("name"), row.pop("bytes"), fields, doc=told.get(path, {}).get("doc", ""), **row
        )

    def _field(self, row: Dict[str, Any], path: str, told: Any) -> Field:
        note = told.get(f"{path}.{row.get('name')}", {})
        return Field(**row, doc=note.get("doc", ""), values=note.get("values"))

    def _memory(self, key: str, row: Dict[str, Any], path: str, told: Any) -> Memory:
        return Memory(**row, doc=told.get(path, {}).get("doc", ""))

    def _map(self, key: str, row: Dict[str, Any], path: str, told: Any) -> Map:
        return Map(**row)


def _at(origin: Origin, error: Exception) -> str:
    """An error's text with the place of the row in front, and without that of the call which reads it."""
    text = f"missing key {error.args[0]}" if isinstance(error, KeyError) else str(error)
    text = re.sub(
        r".*\.__init__\(\) got an unexpected keyword argument '(\w+)'", r"unknown key \1", text
    )
    text = re.sub(r".*\.__init__\(\) missing \d+ required .*?: '(\w+)'.*", r"missing key \1", text)
    own = f"{caller()}: "
    return f"{origin}: {text[len(own) :] if text.startswith(own) else text}"
