"""`python -m regrun import FILE`: from a register file of any format to a description."""

from __future__ import annotations

import argparse
import os
import sys
from typing import List, Optional, Sequence, Tuple

from . import importing, notes, numbers
from .choice import Choice, address_range
from .errors import SourceError
from .report import one_line
from .shape import Options

LEFT_OUT, REFUSED, UNREADABLE, UNWRITABLE = 1, 2, 3, 4

_EPILOG = """A word @FILE stands for the lines of a file, one word a line, without empty lines and those that
begin with #. exit status: 0 imported; 1 with --strict something was left out; 2 the file is refused, or the
words of the command are; 3 it can't be read; 4 the output can't be written"""


class _Parser(argparse.ArgumentParser):
    """A parser whose files of words may have empty lines and comments."""

    def convert_arg_line_to_args(self, arg_line: str) -> List[str]:
        word = arg_line.strip()
        return [] if not word or word.startswith("#") else [word]


def _parser() -> argparse.ArgumentParser:
    parser = _Parser(
        prog="python -m regrun import",
        description="Makes a description of IP-XACT, CMSIS-SVD, reggen hjson or a table.",
        epilog=_EPILOG,
        fromfile_prefix_chars="@",
    )
    parser.add_argument("file", metavar="FILE", help="the file to import")
    parser.add_argument(
        "--format",
        choices=importing.FORMATS,
        help="the format; found by the content where left out",
    )
    parser.add_argument(
        "--block", action="append", default=[], metavar="NAME",
        help="import this block alone; may have * and ?, and be given several times",
    )  # fmt: skip
    parser.add_argument(
        "--address", action="append", default=[], metavar="A-B", type=_range,
        help="import the registers of these addresses alone, both ends included",
    )  # fmt: skip
    parser.add_argument(
        "--take", action="append", default=[], metavar="PATH",
        help="of registers or fields at one place, the one to import",
    )  # fmt: skip
    parser.add_argument(
        "--volatile", action="append", default=[], metavar="PATH",
        help="the device changes these fields by itself, though the file doesn't say so",
    )  # fmt: skip
    parser.add_argument(
        "--base", default=0, metavar="A", type=_number, help="added to each address"
    )
    parser.add_argument("--adapter", choices=("plain", "apb"), default="", help="the bus adapter")
    parser.add_argument("--no-backdoor", action="store_true", help="write backdoor = false")
    parser.add_argument(
        "--notes", metavar="FILE", help="write documentation and names of values there, for Python"
    )
    parser.add_argument("--report", metavar="FILE", help="write the report there too")
    parser.add_argument("--strict", action="store_true", help="fail where anything was left out")
    parser.add_argument("-o", "--output", metavar="FILE", help="standard output where left out")
    return parser


def _range(text: str) -> Tuple[int, int]:
    try:
        return address_range(text)
    except numbers.NumberError as error:
        raise argparse.ArgumentTypeError(str(error)) from None


def _number(text: str) -> int:
    try:
        return numbers.table(text)
    except numbers.NumberError as error:
        raise argparse.ArgumentTypeError(str(error)) from None


def main(argv: Sequence[str]) -> int:
    """Runs the command and gives its exit status."""
    try:
        words = _parser().parse_args(list(argv))
    except SystemExit as ends:
        return int(ends.code or 0)
    choice = Choice(words.block, words.address, words.take)
    options = Options(words.adapter, words.base, words.volatile)
    try:
        result = importing.import_file(
            words.file, words.format, choice, options, backdoor=not words.no_backdoor
        )
    except SourceError as error:
        place = f"{words.file}:{error.line}" if error.line else words.file
        print(f"{place}: refused: {one_line(error.text, 300)}", file=sys.stderr)
        return REFUSED
    except OSError as error:
        print(f"{words.file}: {error.strerror or error}", file=sys.stderr)
        return UNREADABLE
    lines = result.report.lines()
    print("\n".join(lines), file=sys.stderr)
    if words.report and not _write(words.report, "\n".join(lines) + "\n"):
        return UNWRITABLE
    if words.strict and result.report.number("left out"):
        return LEFT_OUT
    if words.notes and not _write(words.notes, notes.write(result.description)):
        return UNWRITABLE
    return 0 if _write(words.output, result.text) else UNWRITABLE


def _write(path: Optional[str], text: str) -> bool:
    data = text.encode("utf-8", "replace")
    try:
        if path is None:
            sys.stdout.flush()
            sys.stdout.buffer.write(data)
            sys.stdout.flush()
        else:
            with open(path, "wb") as file:
                file.write(data)
    except OSError as error:
        print(f"{path or 'standard output'}: {error.strerror or error}", file=sys.stderr)
        if path is None:
            sys.stdout = open(os.devnull, "w", encoding="utf-8")
        return False
    return True


def run() -> None:
    """The program of `python -m regrun.importer`."""
    arguments: List[str] = sys.argv[1:]
    sys.exit(main(arguments))
