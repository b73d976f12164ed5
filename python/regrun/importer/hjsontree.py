"""Reads Hjson (hjson.github.io/syntax) into tables that know their lines.

Debian has no library of it for Python, and the one there is tells no lines. Numbers and words stay
as they are spelled, since reggen spells its numbers as texts.
"""

from __future__ import annotations

import re
from typing import Any, Dict, List, Union

from .errors import SourceError

MOST_DEPTH = 64
MOST_VALUES = 200_000

_ESCAPES = {"b": "\b", "f": "\f", "n": "\n", "r": "\r", "t": "\t"}
_BLANKS = re.compile(r"[\s,]*")
_GAP = re.compile(r"\s*")
_COMMENT = re.compile(r"(?:#|//)[^\n]*|/\*.*?\*/", re.DOTALL)
_KEY = re.compile(r"[^\s,:\[\]{}]+")
_LITERAL = re.compile(
    r"(true|false|null|-?(?:0|[1-9][0-9]*)(?:\.[0-9]+)?(?:[eE][-+]?[0-9]+)?)[ \t\r]*(?=[,\]}\n#]|//|/\*|\Z)"
)
_PLAIN = {'"': re.compile(r'[^"\\\n]*'), "'": re.compile(r"[^'\\\n]*")}


class Table(Dict[str, Any]):
    """An object; `line` is where it begins."""

    line: int = 0

    def text(self, key: str, default: str = "") -> str:
        """A text, number or word in one line, or the default where there is none. Raises SourceError."""
        value = self.get(key, default)
        if not isinstance(value, str):
            raise SourceError(f"`{key}` isn't a text", self.line)
        return value.strip()

    def tables(self, key: str) -> List["Table"]:
        """A list of objects, empty where there is none. Raises SourceError."""
        value = self.get(key, [])
        if not isinstance(value, list) or not all(isinstance(one, Table) for one in value):
            raise SourceError(f"`{key}` isn't a list of objects", self.line)
        return value


Value = Union[str, List[Any], Table]


class _Reader:
    def __init__(self, text: str) -> None:
        self.text = text
        self.at = 0
        self.values = 0
        self.line_at = 0
        self.line_number = 1

    def line(self) -> int:
        """The line of the place that was reached."""
        self.line_number += self.text.count("\n", self.line_at, self.at)
        self.line_at = self.at
        return self.line_number

    def wrong(self, text: str) -> SourceError:
        return SourceError(f"not Hjson: {text}", self.line())

    def skip(self, commas: bool = False) -> str:
        """Passes blanks and comments; gives the next character, or an empty text at the end."""
        blanks = _BLANKS if commas else _GAP
        while True:
            match = blanks.match(self.text, self.at)
            self.at = match.end() if match else self.at
            comment = _COMMENT.match(self.text, self.at)
            if comment is None:
                return self.text[self.at : self.at + 1]
            self.at = comment.end()

    def root(self) -> Table:
        opened = self.skip() == "{"
        self.at += opened
        table = self.members(0, closed=opened)
        if self.skip():
            raise self.wrong("something stands behind the end")
        return table

    def members(self, depth: int, closed: bool) -> Table:
        """The members of an object up to its bracket, or to the end of the text."""
        table = Table()
        table.line = self.line()
        while True:
            head = self.skip(commas=True)
            if head == "}" and closed:
                self.at += 1
                return table
            if not head and not closed:
                return table
            key = self.key(head)
            if self.skip() != ":":
                raise self.wrong("no `:` behind a key")
            self.at += 1
            table[key] = self.value(depth + 1)

    def key(self, head: str) -> str:
        if head in ('"', "'") and head:
            return self.quoted(head)
        match = _KEY.match(self.text, self.at)
        if match is None:
            raise self.wrong("a bracket that isn't closed" if not head else f"no key at `{head}`")
        self.at = match.end()
        return match.group()

    def value(self, depth: int) -> Value:
        self.values += 1
        if self.values > MOST_VALUES:
            raise SourceError(f"more than {MOST_VALUES:,} values", self.line())
        if depth > MOST_DEPTH:
            raise SourceError(f"brackets nested more than {MOST_DEPTH} deep", self.line())
        head = self.skip()
        if head == "{":
            self.at += 1
            return self.members(depth, closed=True)
        if head == "[":
            self.at += 1
            return self.list(depth)
        if self.text.startswith("'''", self.at):
            return self.block()
        return self.quoted(head) if head in ('"', "'") and head else self.bare(head)

    def list(self, depth: int) -> List[Any]:
        result: List[Any] = []
        while True:
            head = self.skip(commas=True)
            if head == "]":
                self.at += 1
                return result
            if not head:
                raise self.wrong("a bracket that isn't closed")
            result.append(self.value(depth + 1))

    def quoted(self, quote: str) -> str:
        self.at += 1
        parts: List[str] = []
        while True:
            match = _PLAIN[quote].match(self.text, self.at)
            parts.append(match.group() if match else "")
            self.at = match.end() if match else self.at
            head = self.text[self.at : self.at + 1]
            if head == quote:
                self.at += 1
                return "".join(parts)
            if head != "\\":
                raise self.wrong("a quote that isn't closed")
            parts.append(self.escape())

    def escape(self) -> str:
        letter = self.text[self.at + 1 : self.at + 2]
        self.at += 2
        if letter != "u":
            return _ESCAPES.get(letter, letter)
        digits = self.text[self.at : self.at + 4]
        if not re.fullmatch(r"[0-9a-fA-F]{4}", digits):
            raise self.wrong(r"no four digits behind `\u`")
        self.at += 4
        return chr(int(digits, 16))

    def block(self) -> str:
        """A text of several lines, between three single quotes."""
        column = self.at - (self.text.rfind("\n", 0, self.at) + 1)
        end = self.text.find("'''", self.at + 3)
        if end < 0:
            raise self.wrong("a quote that isn't closed")
        lines = self.text[self.at + 3 : end].split("\n")
        self.at = end + 3
        stripped = [lines[0]] + [
            one[min(column, len(one) - len(one.lstrip())) :] for one in lines[1:]
        ]
        if not stripped[0].strip():
            stripped = stripped[1:]
        return "\n".join(stripped).rstrip()

    def bare(self, head: str) -> str:
        """A number or word, or a text up to the end of the line."""
        match = _LITERAL.match(self.text, self.at)
        if match is not None:
            self.at = match.end()
            return match.group(1)
        if not head or head in "}],:":
            raise self.wrong("no value")
        end = self.text.find("\n", self.at)
        end = len(self.text) if end < 0 else end
        text = self.text[self.at : end].strip()
        self.at = end
        return text


def parse(text: str) -> Table:
    """The object that a text of Hjson is. Raises SourceError."""
    return _Reader(text).root()
