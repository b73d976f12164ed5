"""The plug-in: what a test with the fixture shows, keeps, and isn't allowed to pass by."""

import os
import subprocess
import sys
import xml.etree.ElementTree as xml
from importlib import metadata
from pathlib import Path

import pytest

from chips import CHIP, FLAWS

TOP = Path(__file__).resolve().parents[2]

TESTS = """
import pytest, regrun

def test_passes(regrun_session):
    regrun_session.top.ctrl.level = 3
    assert int(regrun_session.top.ctrl.level) == 3

def test_differs(regrun_session):
    regrun_session.check("top.ctrl")

def test_is_asked_for(regrun_session):
    with pytest.raises(regrun.BusError):
        regrun_session.read("wide")

def test_does_nothing(regrun_session):
    pass

@pytest.mark.regrun(empty=True)
def test_may_do_nothing(regrun_session):
    pass

@pytest.mark.regrun(description="other.toml")
def test_of_another_chip(regrun_session):
    regrun_session.read("lonely")
"""
OTHER = '[[reg]]\nname = "lonely"\nbytes = 1\n[[map]]\nname = "m"\nbytes = 1\n[[place]]\nmap = "m"\nitem = "lonely"\n'


def registered():
    """Whether this interpreter has the plug-in by its entry point."""
    found = metadata.entry_points()
    points = (
        found.select(group="pytest11") if hasattr(found, "select") else found.get("pytest11", [])
    )
    return any(it.name == "regrun" for it in points)


def test_a_failure_shows_the_fields(program, tmp_path):
    (tmp_path / "chip.toml").write_text(CHIP + FLAWS)
    (tmp_path / "other.toml").write_text(OTHER)
    (tmp_path / "pytest.ini").write_text("[pytest]\nregrun_description = chip.toml\n")
    (tmp_path / "test_it.py").write_text(TESTS)
    plugin = [] if registered() else ["-p", "regrun.pytest_plugin"]
    words = [
        sys.executable,
        "-m",
        "pytest",
        *plugin,
        "-q",
        "-p",
        "no:cacheprovider",
        "--junitxml=junit.xml",
    ]
    words += [f"--regrun-program={program}", "--regrun-logs=logs"]
    path = os.pathsep.join([str(TOP / "python"), os.environ.get("PYTHONPATH", "")])
    done = subprocess.run(
        words, cwd=tmp_path, env={**os.environ, "PYTHONPATH": path}, capture_output=True, text=True
    )
    assert "1 failed, 5 passed, 1 error" in done.stdout, done.stdout + done.stderr
    for text in [
        "check top.ctrl @bus: 1 field differs",
        "E            field       bits   expected    read",
        "E         >  mode        6:4    0x5         0x7",
        "the end of the log of regrun",
        "the test made no operation on its session",
    ]:
        assert text in done.stdout, done.stdout
    assert "session.py" not in done.stdout
    logs = tmp_path / "logs"
    assert (
        (logs / "test_it.py-test_differs.log")
        .read_text()
        .startswith("check top.ctrl @bus: ok 0x00080070")
    )
    assert (logs / "test_it.py-test_differs.status").read_text() == "1\n"
    case = next(
        it
        for it in xml.parse(tmp_path / "junit.xml").iter("testcase")
        if it.get("name") == "test_differs"
    )
    assert case.find("properties/property").get("name") == "regrun_log"
