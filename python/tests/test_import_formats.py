"""Each format's example against what a reader of the standard writes down for it."""

from __future__ import annotations

import json

import pytest

from importing import CHECKOUT, EXAMPLES, ask, command, expected, lines_of, regrun, toml

pytest.importorskip("defusedxml", reason="python3-defusedxml isn't installed")
from regrun.importer import import_file  # noqa: E402

NAMES = ("soc.svd", "soc-2009.xml", "soc-2014.xml", "soc-2022.xml", "soc.hjson", "soc.csv")
SCRIPT = "seq hw-reset *\nseq access *\nseq mem-walk *\n"


@pytest.mark.parametrize("name", NAMES)
def test_description(name: str) -> None:
    result = import_file(str(EXAMPLES / name))
    assert sorted(lines_of(result.text)) == sorted(expected(name)[0])


@pytest.mark.parametrize("name", NAMES)
def test_schema(name: str) -> None:
    jsonschema = pytest.importorskip("jsonschema", reason="python3-jsonschema isn't installed")
    schema = json.loads((CHECKOUT / "docs" / "regrun.schema.json").read_text(encoding="utf-8"))
    text = import_file(str(EXAMPLES / name)).text
    jsonschema.Draft202012Validator(schema).validate(toml.loads(text))


@pytest.mark.parametrize("name", NAMES)
def test_report(name: str) -> None:
    result = import_file(str(EXAMPLES / name))
    first = {(one.line, one.kind, one.text): one for one in reversed(result.report.entries)}
    lines = [f"{one.line or ''} {one.kind} {one.where}".strip() for one in first.values()]
    assert sorted(lines) == sorted(expected(name)[1])


@pytest.mark.skipif(regrun() is None, reason="the program regrun isn't built")
@pytest.mark.parametrize("name", NAMES)
def test_runs(name: str) -> None:
    text = import_file(str(EXAMPLES / name)).text
    status, layout = ask(["map"], text)
    places = sum(line.count("+0x") for line in expected(name)[0])
    assert (status, layout.splitlines()[-1]) == (0, f"end: {places} places")
    status, log = ask(["run"], text, SCRIPT)
    assert (status, log.splitlines()[-1].partition(" events, ")[2]) == (
        0,
        "0 differences, 0 bus errors",
    )


def test_command_reports_on_standard_error_and_in_a_file(tmp_path) -> None:  # type: ignore[no-untyped-def]
    output, report = tmp_path / "soc.toml", tmp_path / "soc.report"
    done = command("soc.svd", "-o", str(output), "--report", str(report))
    assert (done.returncode, done.stdout) == (0, "")
    assert done.stderr == report.read_text()
    assert command("soc.svd").stdout == output.read_text()
    last = "soc.svd: 3 blocks, 18 registers, 47 fields, 0 memories; 9 changed, 15 left out, 6 noted"
    assert done.stderr.splitlines()[-1] == last
