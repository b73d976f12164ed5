"""The tests of this folder run in the top folder of regrun, and are skipped where QEMU isn't installed."""

import shutil
from pathlib import Path

import pytest

TOP = Path(__file__).resolve().parents[2]


@pytest.fixture(autouse=True)
def at_the_top(monkeypatch):
    if shutil.which("qemu-system-arm") is None:
        pytest.skip("the Debian package qemu-system-arm is not installed")
    monkeypatch.chdir(TOP)
