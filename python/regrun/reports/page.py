"""page [SESSION] LOG ..: a page that shows the registers of sessions by bits and fields.

Before each LOG stands its SESSION; where none does, it is the file NAME.session or NAME.regrun beside NAME.log. Bits that a
check found different are marked: those of the fields that it named in which the value read isn't what was mirrored before.
Behind the registers stands why a log isn't a whole one, if so. The page goes to standard output, is static, and needs no script.
"""

from __future__ import annotations

import argparse
import sys
from pathlib import Path
from typing import Dict, Iterator, List, Optional, Sequence, Tuple

from ..description import Description, Field, Register
from ..errors import DescriptionError
from ..events import CHECKS, Event, Other, read_log
from .judged import escaped, read, text_of

STYLE = """body{font-family:sans-serif;margin:2em;max-width:75em} h2{margin-top:2em} td{border:1px solid #888;text-align:center;
padding:.15em;min-width:1.1em;font-size:80%} .none{background:#eee} .bit{border:0;color:#666} .wrong{background:#d33;color:#fff;font-weight:bold}
table{border-collapse:collapse;margin:.4em 0 .2em} pre{background:#f6f6f6;padding:.6em} .told{color:#a00}"""

Entries = List["Event | Other"]


def differing(chip: Description, entries: Entries) -> Tuple[Dict[str, int], Dict[str, List[str]]]:
    """For each register the bits that some check found different, and the checks that did."""
    registers = chip.registers
    fields = {f"{path}.{it.name}": path for path, reg in registers.items() for it in reg.fields}
    mirrored = {path: reg.after_reset("HARD") for path, reg in registers.items()}
    wrong: Dict[str, int] = dict.fromkeys(registers, 0)
    told: Dict[str, List[str]] = {path: [] for path in registers}
    for event in entries:
        if not isinstance(event, Event):
            continue
        path = fields.get(event.item, event.item)
        if event.operation == "reset":
            mirrored = {
                it: reg.after_reset(event.item, mirrored[it]) for it, reg in registers.items()
            }
        if path not in registers or event.mirrored is None:
            continue
        if event.operation in CHECKS and event.differs and event.value is not None:
            masks = [it.mask for it in registers[path].fields if it.name in event.differ]
            wrong[path] |= (event.value ^ mirrored[path]) & sum(masks)
            told[path].append(event.raw)
        mirrored[path] = event.mirrored
    return wrong, told


def picture(reg: Register, wrong: int) -> str:
    """A register from its highest bit down: a row of bit numbers, and a row of fields or single bits."""
    bits = 8 * reg.bytes
    owner: Dict[int, Field] = {
        bit: it for bit in range(bits) for it in reg.fields if it.mask >> bit & 1
    }
    numbers = "".join(f'<td class="bit">{bit}' for bit in reversed(range(bits)))
    cells, bit = [], bits - 1
    while bit >= 0:
        field, is_wrong, first = owner.get(bit), wrong >> bit & 1, bit
        while bit > 0 and owner.get(bit - 1) is field and wrong >> (bit - 1) & 1 == is_wrong:
            bit -= 1
        name = f"{field.name} {field.policy}" if field else ""
        kind = "wrong" if is_wrong else "" if field else "none"
        cells.append(f'<td class="{kind}" colspan="{first - bit + 1}">{escaped(name)}')
        bit -= 1
    return f"<table><tr>{numbers}<tr>{''.join(cells)}</table>"


def shown(session: Path, log: Path) -> Iterator[str]:
    """The part of the page that one session has."""
    chip = Description.read(session)
    text = text_of(log)
    entries = list(read_log(text.split("\n")[:-1]))
    wrong, told = differing(chip, entries)
    yield f"<h2>{escaped(session.name)}</h2>"
    for path, reg in chip.registers.items():
        yield f"<h3>{escaped(path)}</h3>{picture(reg, wrong[path])}"
        if told[path]:
            yield f'<pre class="told">{escaped(chr(10).join(dict.fromkeys(told[path])))}</pre>'
    last = [it.raw for it in entries if _ends(it)]
    yield f"<pre>{escaped(chr(10).join(last))}</pre>"
    _, why, _ = read(text)
    if why and why not in last:
        yield f'<pre class="told">{escaped(log.name)}: {escaped(why)}</pre>'


def _ends(told: "Event | Other") -> bool:
    """Whether a line is told below the registers: a bus error, the last line, a refusal, or what a link told of its peer."""
    if isinstance(told, Event):
        return told.result == "bus error"
    return told.kind in ("end", "refused", "note")


def pairs(files: Sequence[str]) -> Iterator[Tuple[Path, Path]]:
    """Each session with its log. Raises ValueError where a log has no session."""
    rest = [Path(it) for it in files]
    while rest:
        first = rest.pop(0)
        if first.suffix != ".log":
            if not rest:
                raise ValueError(f"{first} has no log behind it")
            yield first, rest.pop(0)
            continue
        beside = [
            it
            for it in (first.with_suffix(".session"), first.with_suffix(".regrun"))
            if it.exists()
        ]
        if not beside:
            raise ValueError(f"{first} has no session before it, and none beside it")
        yield beside[0], first


def main(arguments: Optional[Sequence[str]] = None) -> int:
    """The command; its arguments are those of the module's text."""
    parser = argparse.ArgumentParser(
        prog="python -m regrun page",
        description=__doc__,
        formatter_class=argparse.RawDescriptionHelpFormatter,
    )
    parser.add_argument("files", nargs="+", metavar="[SESSION] LOG")
    asked = parser.parse_args(arguments)
    try:
        found = list(pairs(asked.files))
    except ValueError as error:
        parser.error(str(error))
    try:
        shown_pairs = ["\n".join(shown(session, log)) for session, log in found]
    except DescriptionError as error:
        print(f"regrun page: {error}", file=sys.stderr)
        return 2
    print(
        f"<!doctype html><html lang=en><meta charset=utf-8><title>regrun: registers and differences</title><style>{STYLE}</style>"
    )
    print("<h1>Registers, and the bits that checks found different</h1>")
    print(
        "<p>Each register from its highest bit down, each field with its access policy. A bit is red where a check read another "
        "value there than the one mirrored before; behind the register stand the lines of the log that say so.</p>"
    )
    print("\n".join(shown_pairs))
    return 0
