"""What the tests share: the programs that they run, of the environment or of the checkout where it is built."""

import os
import subprocess
import sys
from pathlib import Path

import pytest

TOP = Path(__file__).resolve().parents[2]
sys.path.insert(0, str(TOP / "python"))

PROGRAMS = {"REGRUN": "regrun_main", "REGRUN_LINK": "regrun_link"}


def built(variable):
    """A program of the environment, or the built one of the checkout; None where there is neither."""
    crate = PROGRAMS[variable]
    here = os.environ.get(variable) or str(TOP / "crates" / crate / "out" / crate)
    return here if os.access(here, os.X_OK) else None


@pytest.fixture(scope="session")
def program():
    """The program regrun."""
    found = built("REGRUN")
    if found is None:
        pytest.skip("REGRUN names no program")
    return found


@pytest.fixture(scope="session")
def link():
    """The program regrun-link."""
    found = built("REGRUN_LINK")
    if found is None:
        pytest.skip("REGRUN_LINK names no program")
    return found


@pytest.fixture(scope="session")
def run(program):
    """Runs a whole session by the command: the log and the exit status."""

    def whole(session):
        done = subprocess.run(
            [program, "run"], input=session.encode(), capture_output=True, check=False
        )
        return done.stdout.decode(), done.returncode

    return whole


@pytest.fixture
def script(tmp_path):
    """Makes a program of a few lines of Python."""

    def made(text, name="program"):
        source = tmp_path / f"{name}.py"
        source.write_text(text)
        path = tmp_path / name
        path.write_text(f"#!/bin/sh\nexec '{sys.executable}' '{source}' \"$@\"\n")
        path.chmod(0o755)
        return str(path)

    return made
