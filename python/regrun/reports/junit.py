"""junit [-o FILE] [--page FILE] [--allow KIND:NAME].. FOLDER | LOG..: JUnit XML of sessions, and a page of failing checks.

For each NAME.log there is the exit status in NAME.status, as examples/regression/one.sh leaves it, and perhaps the seconds
that it took in NAME.seconds. Of a FOLDER each NAME.session must have been run; the files are then FOLDER/junit.xml and
FOLDER/failing.html. Of LOG.. the XML is written to standard output or the file that is given.

A session passed where its status is 0, every line of its log is one that this version of regrun writes, its last line
counts no difference and no bus error, and that line's count of events is that of the lines above it. Each difference, bus
error, refused operation and sequence of no step is a failure. Everything else is an error, never a pass: no operation at
all, no status, a session that didn't end by itself, a refused session, a truncated log, a log of another version.

--allow refused:NAME, no-steps:NAME or empty:NAME lets the session NAME have refused operations, sequences of no step, or no
operation at all. NAME may have `*`. The exit status is 0 where all passed, and else 1.
"""

from __future__ import annotations

import argparse
import sys
import xml.etree.ElementTree as xml
from pathlib import Path
from typing import Dict, List, Optional, Sequence, Tuple

from .judged import Allowed, Result, escaped, judge, plain


def suite(results: Sequence[Result]) -> xml.Element:
    """The results as JUnit XML: one test case a session."""
    failed = sum(bool(it.failures) and not it.error for it in results)
    errors = sum(bool(it.error) for it in results)
    top = xml.Element(
        "testsuite",
        name="regrun",
        tests=str(len(results)),
        failures=str(failed),
        errors=str(errors),
    )
    top.set("time", f"{sum(it.seconds for it in results):.3f}")
    for it in results:
        case = xml.SubElement(
            top, "testcase", classname="regrun", name=plain(it.name), time=f"{it.seconds:.3f}"
        )
        if it.error:
            xml.SubElement(case, "error", message=plain(it.error))
        elif it.failures:
            told = "\n".join(f"line {failure.line}: {failure.text}" for failure in it.failures)
            message = f"{len(it.failures)} failing: {it.failures[0].text}"
            xml.SubElement(case, "failure", message=plain(message)).text = plain(told)
    return top


def page(results: Sequence[Result]) -> str:
    """A page of the failing checks by register and field, and of the sessions that had no whole log."""
    rows: Dict[Tuple[str, str], List[Tuple[str, int, str]]] = {}
    for result in results:
        for failure in result.failures:
            rows.setdefault((failure.item, failure.field), []).append(
                (result.name, failure.line, failure.text)
            )
    told = escaped
    lines = [
        f"<tr><td>{told(item)}<td>{told(field)}<td>{len(at)}<td>{told(at[0][0])}.log:{at[0][1]}<td><code>{told(at[0][2])}</code>"
        for (item, field), at in sorted(rows.items())
    ]
    errors = [f"<li>{told(it.name)}: {told(it.error)}" for it in results if it.error]
    style = "body{font-family:sans-serif;margin:2em}td,th{padding:.2em .8em;text-align:left;border-bottom:1px solid #ccc}"
    return "\n".join(
        [
            "<!doctype html><meta charset=utf-8><title>regrun: failing checks</title>",
            f"<style>{style}</style>",
            f"<h1>{len(rows)} failing, {len(errors)} sessions without a whole log</h1>",
            "<table><tr><th>Register or memory<th>Field<th>Times<th>First at<th>Line",
            *lines,
            "</table>",
            "<ul>",
            *errors,
            "</ul>",
        ]
    )


def summary(results: Sequence[Result]) -> List[str]:
    """A line for each session that didn't pass, and the counts."""
    told = []
    for it in results:
        if it.error:
            told.append(f"{it.name}: {it.error}")
        elif it.failures:
            told.append(
                f"{it.name}: {len(it.failures)} failing, first line {it.failures[0].line}: {it.failures[0].text}"
            )
    passed = sum(it.passed for it in results)
    return [*map(plain, told), f"{passed} passed, {len(results) - passed} failed"]


def main(arguments: Optional[Sequence[str]] = None) -> int:
    """The command; its arguments are those of the module's text."""
    parser = argparse.ArgumentParser(
        prog="python -m regrun junit",
        description=__doc__,
        formatter_class=argparse.RawDescriptionHelpFormatter,
    )
    parser.add_argument(
        "of", nargs="+", metavar="FOLDER or LOG", help="a folder of sessions that were run, or logs"
    )
    parser.add_argument("-o", metavar="FILE", help="the JUnit XML")
    parser.add_argument("--page", metavar="FILE", help="a page of the failing checks")
    parser.add_argument(
        "--allow", metavar="KIND:NAME", action="append", default=[], help="what a session may have"
    )
    asked = parser.parse_args(arguments)
    try:
        allowed = Allowed(asked.allow)
    except ValueError as error:
        parser.error(str(error))
    folder = Path(asked.of[0]) if len(asked.of) == 1 and Path(asked.of[0]).is_dir() else None
    logs = [Path(it) for it in asked.of]
    if folder is not None:
        logs = [it.with_suffix(".log") for it in sorted(folder.glob("*.session"))]
    results = [judge(it, allowed) for it in logs]
    xml_file = asked.o or (str(folder / "junit.xml") if folder else "-")
    page_file = asked.page or (str(folder / "failing.html") if folder else None)
    tree = xml.ElementTree(suite(results))
    if xml_file == "-":
        tree.write(sys.stdout.buffer, encoding="utf-8", xml_declaration=True)
        sys.stdout.buffer.write(b"\n")
    else:
        tree.write(xml_file, encoding="utf-8", xml_declaration=True)
    if page_file:
        Path(page_file).write_text(page(results), encoding="utf-8")
    told = summary(results)
    if folder is not None and not results:
        told.insert(0, f"{folder}: no NAME.session stands there")
    print("\n".join(told), file=sys.stderr if xml_file == "-" else sys.stdout)
    return 0 if results and all(it.passed for it in results) else 1
