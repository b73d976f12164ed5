"""Numbers of the formats, and the expressions of IP-XACT."""

from __future__ import annotations

import re
from typing import Callable, Dict, List, Optional

MOST_DIGITS = 80
MOST_EXPRESSION = 1000
MOST_DEPTH = 40
MOST_BITS = 256

_SCALES = {"k": 2**10, "m": 2**20, "g": 2**30, "t": 2**40}
_SVD = re.compile(r"\+?(?:0[xX]([0-9a-fA-F]+)|#([01]+)|0[bB]([01]+)|([0-9]+)([kKmMgGtT]?))\Z")


class NumberError(ValueError):
    """A text that isn't a number, in words for the report."""


def svd(text: str) -> int:
    """A number of CMSIS-SVD: decimal, `0x`, `0b` or `#` for binary."""
    match = _SVD.match(_short(text))
    if match is None:
        raise NumberError(f"`{text}` isn't a number")
    hexadecimal, sharp, binary, decimal, scale = match.groups()
    if hexadecimal:
        return int(hexadecimal, 16)
    if sharp or binary:
        return int(sharp or binary, 2)
    return int(decimal) * _SCALES.get(scale.lower(), 1)


_TABLE = re.compile(
    r"(?:(?:[0-9]*'[hH]|0[xX]|[hH]|16#)([0-9a-fA-F_]+)#?|([0-9a-fA-F]+)[hH]"
    r"|(?:[0-9]*'[bB]|0[bB]|2#)([01_]+)#?|([01]+)[bB]|(?:[0-9]*'[dD])?([0-9_]+))\Z"
)


def table(text: str, hexadecimal: bool = False) -> int:
    """A number of a spreadsheet: decimal, or hexadecimal where a column is, `0x1f`, `1Fh`, `'h1f`, `0b1`."""
    short = _short(text).replace(" ", "")
    if hexadecimal and re.fullmatch(r"[0-9a-fA-F_]+", short):
        return int(short.replace("_", "") or "0", 16)
    match = _TABLE.match(short)
    if match is None:
        raise NumberError(f"`{text}` isn't a number")
    front, behind, binary, letter, decimal = (
        part and part.replace("_", "") for part in match.groups()
    )
    if front or behind:
        return int(front or behind, 16)
    if binary or letter:
        return int(binary or letter, 2)
    if not decimal:
        raise NumberError(f"`{text}` isn't a number")
    return int(decimal)


def _short(text: str) -> str:
    stripped = text.strip()
    if len(stripped) > MOST_DIGITS:
        raise NumberError(f"a number of {len(stripped)} characters")
    return stripped


_TOKEN = re.compile(
    r"\s*(?:(?P<real>[0-9][0-9_]*\.[0-9]+)"
    r"|(?P<number>[0-9]*'[sS]?[hHdDbBoO]\s*[0-9a-fA-F_xXzZ?]+|\#[0-9a-fA-F]+"
    r"|0[xX][0-9a-fA-F_]+|0[bB][01_]+"
    r"|[0-9][0-9_]*[kKmMgGtT]?(?![A-Za-z0-9_]))"
    r"|(?P<name>\$?[A-Za-z_][A-Za-z0-9_]*)"
    r"|(?P<sign>\*\*|<<<|>>>|<<|>>|<=|>=|==|!=|&&|\|\||[-+*/%()<>&|^~!?:,]))"
)

_LEVELS: List[List[str]] = [
    ["||"],
    ["&&"],
    ["|"],
    ["^"],
    ["&"],
    ["==", "!="],
    ["<", "<=", ">", ">="],
    ["<<", ">>", "<<<", ">>>"],
    ["+", "-"],
    ["*", "/", "%"],
    ["**"],
]


def expression(text: str, value_of: Optional[Callable[[str], int]] = None) -> int:
    """The value of an expression of IP-XACT: SystemVerilog's integers, operators and parameters.

    `value_of` gives the value of a parameter by its identifier and raises NumberError.
    """
    if len(text) > MOST_EXPRESSION:
        raise NumberError(f"an expression of {len(text)} characters")
    reader = _Expression(text, value_of)
    result = reader.ternary(0)
    if reader.next:
        raise NumberError(f"`{text.strip()}` isn't an expression that is read here")
    return result


class _Expression:
    """Reads one expression by descent; each level of operators binds closer than the one before."""

    def __init__(self, text: str, value_of: Optional[Callable[[str], int]]) -> None:
        self.text = text.strip()
        self.value_of = value_of
        self.tokens = self._split()
        self.index = 0

    def _split(self) -> List[str]:
        tokens: List[str] = []
        end = 0
        while end < len(self.text):
            match = _TOKEN.match(self.text, end)
            if match is None or match.group("real"):
                raise self._wrong()
            if match.end() - match.start() > MOST_DIGITS:
                raise NumberError(f"a number of {match.end() - match.start()} characters")
            tokens.append(match.group().strip())
            end = match.end()
        return tokens

    def _wrong(self) -> NumberError:
        return NumberError(f"`{self.text}` isn't an expression that is read here")

    @property
    def next(self) -> str:
        return self.tokens[self.index] if self.index < len(self.tokens) else ""

    def take(self, token: str) -> None:
        if self.next != token:
            raise self._wrong()
        self.index += 1

    def ternary(self, depth: int) -> int:
        if depth > MOST_DEPTH:
            raise NumberError("an expression that is nested too deep")
        condition = self.binary(0, depth)
        if self.next != "?":
            return condition
        self.take("?")
        yes = self.ternary(depth + 1)
        self.take(":")
        no = self.ternary(depth + 1)
        return yes if condition else no

    def binary(self, level: int, depth: int) -> int:
        if level == len(_LEVELS):
            return self.unary(depth)
        left = self.binary(level + 1, depth)
        while self.next in _LEVELS[level]:
            sign = self.next
            self.take(sign)
            left = self._limited(_combine(sign, left, self.binary(level + 1, depth)))
        return left

    def unary(self, depth: int) -> int:
        if depth > MOST_DEPTH:
            raise NumberError("an expression that is nested too deep")
        sign = self.next
        if sign and sign in "+-~!":
            self.take(sign)
            value = self.unary(depth + 1)
            return {"+": value, "-": -value, "~": ~value, "!": int(not value)}[sign]
        if sign == "(":
            self.take("(")
            value = self.ternary(depth + 1)
            self.take(")")
            return value
        return self.word(depth)

    def word(self, depth: int) -> int:
        word = self.next
        if not word:
            raise self._wrong()
        self.index += 1
        if word[0].isdigit() or word[0] in "'#":
            return _literal(word)
        if word.startswith("$"):
            return self.function(word, depth)
        if word in ("true", "false"):
            return int(word == "true")
        if not (word[0].isalpha() or word[0] == "_") or self.value_of is None:
            raise self._wrong()
        return self.value_of(word)

    def function(self, name: str, depth: int) -> int:
        self.take("(")
        values = [self.ternary(depth + 1)]
        while self.next == ",":
            self.take(",")
            values.append(self.ternary(depth + 1))
        self.take(")")
        if name == "$clog2" and len(values) == 1:
            return max(values[0] - 1, 0).bit_length()
        if name == "$pow" and len(values) == 2:
            return self._limited(_combine("**", values[0], values[1]))
        if name in ("$min", "$max"):
            return min(values) if name == "$min" else max(values)
        raise NumberError(f"`{name}` isn't a function that is read here")

    def _limited(self, value: int) -> int:
        if value.bit_length() > MOST_BITS:
            raise NumberError(f"`{self.text}` has a value of more than {MOST_BITS} bits")
        return value


def _literal(word: str) -> int:
    if "'" in word:
        _, _, rest = word.partition("'")
        rest = rest.lstrip("sS")
        base = {"h": 16, "d": 10, "b": 2, "o": 8}[rest[0].lower()]
        digits = rest[1:].strip().replace("_", "")
    elif word[:2] in ("0x", "0X"):
        base, digits = 16, word[2:].replace("_", "")
    elif word[:2] in ("0b", "0B"):
        base, digits = 2, word[2:].replace("_", "")
    elif word[0] == "#":
        base, digits = 16, word[1:]
    else:
        scale = _SCALES.get(word[-1].lower(), 1)
        return int(word.rstrip("kKmMgGtT").replace("_", "")) * scale
    try:
        return int(digits, base)
    except ValueError:
        raise NumberError(f"`{word}` isn't a number") from None


def _combine(sign: str, left: int, right: int) -> int:
    if sign in ("/", "%") and right == 0:
        raise NumberError("a division by 0")
    if sign in ("<<", "<<<", ">>", ">>>", "**") and not 0 <= right <= MOST_BITS:
        raise NumberError(f"a shift or power by {right}")
    return _OPERATIONS[sign](left, right)


def _quotient(left: int, right: int) -> int:
    size = abs(left) // abs(right)
    return size if (left < 0) == (right < 0) else -size


_OPERATIONS: Dict[str, Callable[[int, int], int]] = {
    "||": lambda left, right: int(bool(left) or bool(right)),
    "&&": lambda left, right: int(bool(left) and bool(right)),
    "|": lambda left, right: left | right,
    "^": lambda left, right: left ^ right,
    "&": lambda left, right: left & right,
    "==": lambda left, right: int(left == right),
    "!=": lambda left, right: int(left != right),
    "<": lambda left, right: int(left < right),
    "<=": lambda left, right: int(left <= right),
    ">": lambda left, right: int(left > right),
    ">=": lambda left, right: int(left >= right),
    "<<": lambda left, right: left << right,
    ">>": lambda left, right: left >> right,
    "<<<": lambda left, right: left << right,
    ">>>": lambda left, right: left >> right,
    "+": lambda left, right: left + right,
    "-": lambda left, right: left - right,
    "*": lambda left, right: left * right,
    "/": _quotient,
    "%": lambda left, right: left - right * _quotient(left, right),
    "**": lambda left, right: int(left**right),
}
