"""Reports of logs: what passes and what doesn't, the pages, and JSON."""

import json
import xml.etree.ElementTree as xml
from pathlib import Path

import pytest

from regrun.__main__ import main

TOP = Path(__file__).resolve().parents[2]
CHECK = "check a @m: ok 0x01 mirror 0x01{}\n  m r 0x0 0x01 1 #0 ok\n"
END = "end: {} events, {} differences, {} bus errors\n"
REFUSED = "write a 0x100 @m: refused too wide\n"
IDLE = "reset HARD: ok\nseq shared *: begin\nseq shared *: 0 steps, 0 differences, 0 bus errors\n"

# A log, its status, what is allowed, whether it passes, and what is said otherwise.
LOGS = [
    (CHECK.format("") + END.format(1, 0, 0), 0, [], None),
    (
        CHECK.format(" differ b") + END.format(1, 1, 0),
        1,
        [],
        "it: 1 failing, first line 1: check a @m: ok 0x01",
    ),
    (
        "read a @m: bus error at word 0 mirror 0x00\n" + END.format(1, 0, 1),
        1,
        [],
        "bus error at word 0",
    ),
    (
        CHECK.format(" differ b") + END.format(1, 1, 0),
        0,
        [],
        "the status is 0, and the log shows 1 failures",
    ),
    (
        CHECK.format("") + END.format(2, 0, 0),
        0,
        [],
        "its last line counts [2, 0, 0], and the lines above it [1, 0, 0]",
    ),
    (CHECK.format(""), 0, [], "the log has no last line"),
    (CHECK.format("")[:-3], 0, [], "cut off"),
    (
        "regrun 9\n" + END.format(0, 0, 0),
        0,
        [],
        "line 1 is none that this version writes: regrun 9",
    ),
    (
        "refused line 3: no such name\n",
        2,
        [],
        "the session is refused: refused line 3: no such name",
    ),
    (CHECK.format("") + END.format(1, 0, 0), 7, [], "the link to the device broke"),
    (CHECK.format("") + END.format(1, 0, 0), "", [], "it: it.status has no exit status"),
    ("\033[31mlost\0\n", 0, [], "line 1 is none that this version writes"),
    (
        "# not done: `hw a.b 0x1`; the answer was `\033`\n"
        + CHECK.format("")
        + END.format(1, 0, 0),
        1,
        [],
        "it: 1 failing, first line 1: # not done",
    ),
    (
        "# not done: `hw a.b 0x1`; the answer was `none\r`\n"
        + CHECK.format("")
        + END.format(1, 0, 0),
        1,
        [],
        "it: 1 failing, first line 1: # not done",
    ),
    ("\ufeff" + (CHECK.format("") + END.format(1, 0, 0)).replace("\n", "\r\n"), 0, [], None),
    (
        REFUSED + END.format(1, 0, 0),
        0,
        [],
        "it: 1 failing, first line 1: write a 0x100 @m: refused too wide",
    ),
    (REFUSED + END.format(1, 0, 0), 0, ["--allow", "refused:it"], None),
    (REFUSED + END.format(1, 0, 0), 0, ["--allow", "refused:other"], "1 failing"),
    (IDLE + END.format(1, 0, 0), 0, [], "seq shared *: 0 steps"),
    (IDLE + END.format(1, 0, 0), 0, ["--allow", "no-steps:i*"], None),
    (END.format(0, 0, 0), 0, [], "it has no operation"),
    (END.format(0, 0, 0), 0, ["--allow", "empty:it"], None),
]


@pytest.mark.parametrize("log, status, allowed, why", LOGS)
def test_a_session_passes_only_where_all_is_well(tmp_path, capsys, log, status, allowed, why):
    (tmp_path / "it.log").write_text(log)
    (tmp_path / "it.status").write_text(str(status))
    (tmp_path / "it.seconds").write_text("0.25")
    out = tmp_path / "junit.xml"
    code = main(["junit", "-o", str(out), *allowed, str(tmp_path / "it.log")])
    told = capsys.readouterr().out
    case = xml.parse(out).getroot().find("testcase")
    assert case.get("time") == "0.250"
    if why is None:
        assert (code, told, len(case)) == (0, "1 passed, 0 failed\n", 0)
    else:
        assert (code, len(case)) == (1, 1)
        assert why in told


def test_what_is_missing_is_named(tmp_path, capsys):
    log = tmp_path / "it.log"
    for file in ("it.log", "it.status"):
        assert main(["junit", str(log)]) == 1
        wanted = f"it: the session wasn't run to its end: {file} isn't there\n"
        assert capsys.readouterr().err.startswith(wanted)
        log.write_text(END.format(0, 0, 0))
    (tmp_path / "it.status").write_text("0")
    (tmp_path / "it.seconds").write_text("")
    assert main(["junit", "--allow", "empty:it", str(log)]) == 0


def test_names_that_a_report_cannot_have(tmp_path, capsys):
    """A name in Latin-1, with a control character, and with what XML and HTML escape."""
    names = ["a\udcf6", "b\033", '<&">']
    for name in names:
        (tmp_path / f"{name}.session").write_text("")
        (tmp_path / f"{name}.log").write_text(END.format(0, 0, 0))
        (tmp_path / f"{name}.status").write_text("0")
    assert main(["junit", str(tmp_path)]) == 1
    cases = xml.parse(tmp_path / "junit.xml").getroot().findall("testcase")
    assert {it.get("name") for it in cases} == {"a\ufffd", "b\ufffd", '<&">'}
    assert "<li>&lt;&amp;&quot;&gt;: it has" in (tmp_path / "failing.html").read_text("utf-8")
    assert capsys.readouterr().out.endswith("0 passed, 3 failed\n")
    for name in names:
        assert main(["page", str(tmp_path / f"{name}.log")]) == 0
    assert "\033" not in capsys.readouterr().out


def test_a_folder_without_sessions_is_named(tmp_path, capsys):
    assert main(["junit", str(tmp_path)]) == 1
    wanted = f"{tmp_path}: no NAME.session stands there\n0 passed, 0 failed\n"
    assert capsys.readouterr().out == wanted


def test_the_page_marks_the_bits(capsys):
    """The guide's example: bit 7 of ctrl, in the field divider, isn't as the reset should make it."""
    assert main(["page", str(TOP / "examples/wrong-reset.log")]) == 0
    told = capsys.readouterr().out
    ctrl = told.partition("<h3>ctrl</h3>")[2].partition("<h3>")[0]
    cells = ctrl.partition("<tr>")[2].partition("<tr>")[2].split("<td ")
    assert [it for it in cells if it.startswith('class="wrong"')] == [
        'class="wrong" colspan="1">divider RW'
    ]


# A log, and what the page has behind the registers.
ENDS = [
    (b"", "the log has no last line"),
    (CHECK.format("")[:-3].encode(), "the log is cut off within its last line"),
    (b"# not done: `hw a.b 0x1`; the answer was `\xff`\n", "the answer was `\ufffd`"),
    (
        CHECK.format("").encode() + b"regrun 9\n",
        "line 3 is none that this version writes: regrun 9",
    ),
]


@pytest.mark.parametrize("log, why", ENDS)
def test_the_page_tells_of_a_log_that_is_not_whole(tmp_path, capsys, log, why):
    session = '[[reg]]\nname = "a"\nbytes = 1\nfield = [{ name = "b", lsb = 0, width = 1, policy = "RW" }]\n'
    (tmp_path / "it.session").write_text(session)
    (tmp_path / "it.log").write_bytes(log)
    assert main(["page", str(tmp_path / "it.log")]) == 0
    told = capsys.readouterr().out.partition("</table>")[2]
    assert why in told and "end:" not in told


def test_json_has_what_the_log_has(capsys):
    assert main(["json", str(TOP / "examples/missing-word.log")]) == 0
    told = [json.loads(it) for it in capsys.readouterr().out.splitlines()]
    failed = next(it for it in told if it.get("result") == "bus error")
    assert (failed["text"], failed["failed_word"], failed["mirrored"]) == (
        "write count 0x12345678 @bus",
        1,
        "0x10000",
    )
    assert failed["items"][1] == {
        "map": "bus",
        "direction": "w",
        "address": "0x1002",
        "word": "0x1234",
        "lanes": "11",
        "tag": 1,
        "answer": "error",
    }
    assert told[-1]["kind"] == "end"
