"""The lines of a log, as the guide lists them, and whole logs that stand in this repository."""

from pathlib import Path

import pytest

from regrun.events import Event, Item, read_log

TOP = Path(__file__).resolve().parents[2]

# A line, and what it says: result, reason, failed word, value, mirrored, desired, differing fields, map.
LINES = [
    ("write a.b 0x5 @m: ok mirror 0x05", ("ok", None, None, None, 5, None, (), "m")),
    ("field-write a.b.c 0x1 @m: ok mirror 0x0001", ("ok", None, None, None, 1, None, (), "m")),
    ("poke a.b 0x5: ok mirror 0x05", ("ok", None, None, None, 5, None, (), None)),
    ("hw a.b.c 0x1: ok mirror 0x00", ("ok", None, None, None, 0, None, (), None)),
    ("read a.b @m: ok 0x12 mirror 0x10", ("ok", None, None, 0x12, 0x10, None, (), "m")),
    ("field-read a.b.c @m: ok 0x3 mirror 0x30", ("ok", None, None, 3, 0x30, None, (), "m")),
    ("check a.b @m: ok 0x12 mirror 0x12", ("ok", None, None, 0x12, 0x12, None, (), "m")),
    (
        "check a.b @m: ok 0x12 mirror 0x12 differ c d",
        ("ok", None, None, 0x12, 0x12, None, ("c", "d"), "m"),
    ),
    ("set a.b.c 0x1: ok desired 0x11 mirror 0x10", ("ok", None, None, None, 0x10, 0x11, (), None)),
    ("show a.b: ok desired 0x11 mirror 0x10", ("ok", None, None, None, 0x10, 0x11, (), None)),
    ("update a.b @m: ok sent 0x11 mirror 0x11", ("ok", None, None, 0x11, 0x11, None, (), "m")),
    ("update a.b @m: ok none mirror 0x11", ("ok", None, None, None, 0x11, None, (), "m")),
    ("mem-write a 0x3 0x5 @m: ok", ("ok", None, None, None, None, None, (), "m")),
    ("reset HARD: ok", ("ok", None, None, None, None, None, (), None)),
    ("mem-read a 0x3 @m: ok 0x00000005", ("ok", None, None, 5, None, None, (), "m")),
    ("mem-check a 0x3 0x5 @m: ok 0x00000004 differ", ("ok", None, None, 4, None, None, (), "m")),
    (
        "read a.b @m: bus error at word 1 mirror 0x10",
        ("bus error", None, 1, None, 0x10, None, (), "m"),
    ),
    ("mem-read a 0x3 @m: bus error at word 0", ("bus error", None, 0, None, None, None, (), "m")),
    (
        "write a.b 0x100 @m: refused too wide",
        ("refused", "too wide", None, None, None, None, (), "m"),
    ),
    (
        "burst-write a 0x7 count 2 @m: refused out of range",
        ("refused", "out of range", None, None, None, None, (), "m"),
    ),
]


@pytest.mark.parametrize("line, told", LINES, ids=[line for line, _ in LINES])
def test_line(line, told):
    event = Event(1, line)
    names = ("result", "reason", "failed_word", "value", "mirrored", "desired", "differ", "map")
    assert tuple(getattr(event, it) for it in names) == told
    assert event.text == line.split(":")[0]
    assert event.differs == (" differ" in line)


def test_item():
    line = "  apb0 r 0x40000000 0x00680001 1111 #4 ok"
    assert Item.parse(line) == ("apb0", "r", 0x40000000, 0x00680001, "1111", 4, "ok")
    assert str(Item.parse(line)) == line


@pytest.mark.parametrize("folder", ["examples", "crates"])
def test_logs_are_read_whole(folder):
    """Each log's events and other lines, printed again, are the log; no line is unknown."""
    logs = [it for it in sorted((TOP / folder).rglob("*.log")) if "out" not in it.parts]
    for log in logs:
        text = log.read_text()
        if text.startswith(("place ", "soak ")) or not text.endswith("\n"):
            continue
        told = list(read_log(text.split("\n")[:-1]))
        unknown = [it for it in told if not isinstance(it, Event) and it.kind == "unknown"]
        assert unknown == [], log
        again = [it.log if isinstance(it, Event) else it.raw for it in told]
        assert "".join(f"{it}\n" for it in again) == text, log
