"""The whole way of examples/import/run.sh: from an SVD to the devices of a virtual machine."""

from __future__ import annotations

import importlib.util
import os
import shutil
import subprocess
import sys
from pathlib import Path

import pytest

from importing import EXAMPLES, PYTHON, built

pytest.importorskip("defusedxml", reason="python3-defusedxml isn't installed")


def missing() -> str:
    """What the way needs and isn't there, or nothing."""
    if shutil.which("qemu-system-arm") is None:
        return "qemu-system-arm isn't installed"
    for module in ("regrun.session", "regrun.targets"):
        if importlib.util.find_spec("regrun") is None or importlib.util.find_spec(module) is None:
            return f"the package has no {module}"
    return "" if built("regrun-link") else "the program regrun-link isn't built"


@pytest.mark.skipif(bool(missing()), reason=missing())
def test_only_what_is_known_differs(tmp_path: Path) -> None:
    environment = {**os.environ, "PYTHON": sys.executable, "REGRUN_LINK": str(built("regrun-link"))}
    environment.setdefault("PYTHONPATH", str(PYTHON))
    done = subprocess.run(
        ["bash", str(EXAMPLES / "run.sh"), str(tmp_path)],
        env=environment,
        capture_output=True,
        text=True,
        timeout=600,
    )
    assert done.returncode == 0, done.stdout + done.stderr
    ends = [line for line in done.stdout.splitlines() if " steps, " in line]
    assert [end.split(", ")[1:] for end in ends] == [
        ["139 differences", "0 bus errors"],
        ["74 differences", "0 bus errors"],
    ]
