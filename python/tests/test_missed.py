"""Of the flaws that a script misses, which its log shows."""

import os
import subprocess
import sys

import pytest
from conftest import TOP

from regrun.reports import missed

CHIP = """[[reg]]
name = "a"
bytes = 1
field = [{ name = "f", lsb = 0, width = 1, policy = "RW", reset = 0 }]
[[map]]
name = "m"
bytes = 1
[[place]]
map = "m"
item = "a"
---
"""


@pytest.fixture
def grade():
    """The program regrun-grade."""
    found = os.environ.get("REGRUN_GRADE") or str(TOP / "crates/regrun_grade/out/regrun_grade")
    if not os.access(found, os.X_OK):
        pytest.skip("REGRUN_GRADE names no program")
    return found


def told(grade, program, session):
    """The status of the command, and its comments."""
    words = [
        sys.executable,
        "-m",
        "regrun",
        "missed",
        "--program",
        program,
        "--grade",
        grade,
        str(session),
    ]
    done = subprocess.run(words, capture_output=True, check=False, text=True, cwd=TOP / "python")
    return done.returncode, done.stdout


def test_a_read_shows_what_no_check_finds(tmp_path, program, grade):
    session = tmp_path / "it.regrun"
    session.write_text(CHIP + "reset HARD\nread a\n")
    status, text = told(grade, program, session)
    rows = missed.rows_of(text)
    comments = [line for line in text.splitlines() if line.startswith("# ")]
    seen = [
        row
        for row, comment in zip(rows, comments)
        if comment.startswith("# seen in line 2 of the log")
    ]
    # A bit that reads 1 where 0 is read without the flaw: stuck at 1, or reset to 1. A policy that a write alone shows, or
    # a second read, isn't shown by one read.
    assert status == 0
    assert sorted(row.split('kind = "')[1].split('"')[0] for row in seen) == ["reset", "stuck"]
    assert comments[-1].endswith("2 seen and not checked, " + f"{len(rows) - 2} never shown")


def test_a_check_leaves_nothing_that_is_only_seen(tmp_path, program, grade):
    session = tmp_path / "it.regrun"
    session.write_text(CHIP + "reset HARD\ncheck a\n")
    status, text = told(grade, program, session)
    assert status == 0
    assert ": 0 seen and not checked, " in text.splitlines()[-1]


def test_what_is_refused_stays_refused(tmp_path, program, grade):
    session = tmp_path / "it.regrun"
    session.write_text("[[reg]]\n")
    status, text = told(grade, program, session)
    assert (status, text) == (2, "refused session: no separator\n")
