"""The package as a whole: its version, its command, and what an installation takes."""

import importlib.util
import os
import shutil
import subprocess
import sys
from pathlib import Path

import pytest

import regrun
from regrun.__main__ import MODULES

PYTHON = Path(__file__).resolve().parents[1]


def command(*words, **more):
    """Runs a module of Python, over the checkout."""
    environment = {**os.environ, "PYTHONPATH": str(PYTHON)}
    return subprocess.run(
        [sys.executable, "-m", *words], env=environment, capture_output=True, text=True, **more
    )


def test_the_version_is_that_of_the_repository():
    version = (PYTHON.parent / "VERSION").read_text().strip()
    assert (PYTHON / "VERSION").read_text().strip() == version
    assert regrun.__version__ == version
    assert command("regrun", "--version").stdout == f"regrun {version}\n"


@pytest.mark.parametrize("what", MODULES)
def test_each_command_has_help(what):
    done = command("regrun", what, "--help")
    assert (done.returncode, done.stdout.split(" [", 1)[0], done.stderr) == (
        0,
        f"usage: python -m regrun {what}",
        "",
    )


@pytest.mark.parametrize("words, status", [([], 2), (["what"], 2), (["--help"], 0)])
def test_other_words_are_answered_by_the_list(words, status):
    done = command("regrun", *words)
    told = done.stderr if status else done.stdout
    assert (done.returncode, [it for it in MODULES if f"\n{it} " not in told]) == (status, [])


def modules(folder):
    """The files of the package in a folder, without those that Python compiled."""
    found = (it.relative_to(folder) for it in (folder / "regrun").rglob("*") if it.is_file())
    return {str(it) for it in found if "__pycache__" not in it.parts}


def test_an_installation_takes_all_of_it_without_a_network(tmp_path):
    for module in ("pip", "setuptools", "wheel"):
        if importlib.util.find_spec(module) is None:
            pytest.skip(f"the Debian package python3-{module} is not installed")
    source, to = tmp_path / "python", tmp_path / "to"
    ignored = shutil.ignore_patterns("tests", "build", "*.egg-info", "__pycache__", ".*")
    shutil.copytree(PYTHON, source, ignore=ignored)
    words = ["--no-build-isolation", "--no-index", "--no-deps", "--target", str(to), str(source)]
    done = command("pip", "install", *words, cwd=tmp_path)
    assert done.returncode == 0, done.stdout + done.stderr
    assert modules(to) == modules(PYTHON)
    (metadata,) = to.glob("regrun-*.dist-info")
    assert metadata.name == f"regrun-{regrun.__version__}.dist-info"
    assert "regrun = regrun.pytest_plugin" in (metadata / "entry_points.txt").read_text()
