"""The plug-in for pytest: the fixture `regrun_session`, and what a failure shows.

Options, each also a line of the file that configures pytest (`regrun_description = chip.toml`):

--regrun-program FILE      the program regrun; default as in Session
--regrun-link FILE         the program regrun-link, which a target needs; default as in Session
--regrun-description FILE  the description of the chip
--regrun-target NAME       MODULE:NAME, a target or what makes one when it is called; default: the device model
--regrun-logs FOLDER       keeps NAME.log, NAME.session and NAME.status of each test

A conftest.py may give the fixtures regrun_program, regrun_description and regrun_target itself. A test may have the mark
`regrun(description=FILE, empty=True)`: a description of its own, beside the test's file, and leave to make no operation.
"""

from __future__ import annotations

import importlib
import re
from pathlib import Path
from typing import Any, Generator, Iterator, Optional

import pytest

from .description import Description
from .session import Session

OPTIONS = {
    "program": "the program regrun",
    "link": "the program regrun-link, which a target needs",
    "description": "the description of the chip",
    "target": "MODULE:NAME of a target, or of what makes one",
    "logs": "the folder that keeps log, session and status of each test",
}
SHOWN = 12
_SESSION: "pytest.StashKey[Session]" = pytest.StashKey()
_PASSED: "pytest.StashKey[bool]" = pytest.StashKey()


def pytest_addoption(parser: Any) -> None:
    """Options on the command line and in the configuration."""
    group = parser.getgroup("regrun", "sessions of register operations")
    for name, text in OPTIONS.items():
        group.addoption(f"--regrun-{name}", metavar=name.upper(), default=None, help=text)
        parser.addini(f"regrun_{name}", text, default="")


def pytest_configure(config: Any) -> None:
    """Makes the mark known."""
    config.addinivalue_line(
        "markers", "regrun(description=None, empty=False): the session of a test"
    )


def _asked(config: Any, name: str) -> Optional[str]:
    """An option, from the command line or the configuration."""
    return config.getoption(f"--regrun-{name}") or config.getini(f"regrun_{name}") or None


def _file(config: Any, name: str) -> Optional[Path]:
    """An option that names a file: from where pytest was called, or the folder of its configuration."""
    given = config.getoption(f"--regrun-{name}")
    if given:
        return Path(config.invocation_params.dir, given)
    given = config.getini(f"regrun_{name}")
    return Path(config.rootpath, given) if given else None


def _mark(request: Any) -> Any:
    found = request.node.get_closest_marker("regrun")
    return found.kwargs if found else {}


@pytest.fixture
def regrun_program(request: Any, regrun_target: Any) -> Optional[str]:
    """The program, or None for the one that Session finds."""
    name = "program" if regrun_target is None else "link"
    found = _file(request.config, name)
    return str(found) if found and found.exists() else _asked(request.config, name)


@pytest.fixture
def regrun_description(request: Any) -> Any:
    """The description of the chip: a file, or a Description."""
    own = _mark(request).get("description")
    if isinstance(own, Description):
        return own
    if own is not None:
        return Path(request.node.path).parent / own
    found = _file(request.config, "description")
    if found is None:
        raise pytest.UsageError(
            "no description: give --regrun-description, or the fixture regrun_description"
        )
    return found


@pytest.fixture
def regrun_target(request: Any) -> Any:
    """The target, or None for the device model."""
    name = _asked(request.config, "target")
    if name is None:
        return None
    module, _, attribute = name.partition(":")
    found = getattr(importlib.import_module(module), attribute or "target")
    return found() if callable(found) else found


def _kept(request: Any) -> Optional[Path]:
    """The file that keeps the log of a test."""
    folder = _file(request.config, "logs")
    if folder is None:
        return None
    folder.mkdir(parents=True, exist_ok=True)
    return folder / (re.sub(r"[^\w.-]+", "-", request.node.nodeid).strip("-") + ".log")


@pytest.fixture
def regrun_session(
    request: Any, regrun_program: Optional[str], regrun_description: Any, regrun_target: Any
) -> Iterator[Session]:
    """A session of its own for each test. The test fails where it makes no operation."""
    log = _kept(request)
    with Session(regrun_description, regrun_target, program=regrun_program, log=log) as session:
        request.node.stash[_SESSION] = session
        if log is not None:
            request.node.user_properties.append(("regrun_log", str(log)))
            log.with_suffix(".session").write_text(session.session)
        try:
            yield session
        finally:
            if log is not None:
                log.with_suffix(".session").write_text(session.session)
    if log is not None and session.status is not None:
        log.with_suffix(".status").write_text(f"{session.status}\n")
    if (
        not session.events
        and request.node.stash.get(_PASSED, False)
        and not _mark(request).get("empty")
    ):
        pytest.fail(
            "the test made no operation on its session; the mark regrun(empty=True) allows that",
            pytrace=False,
        )


@pytest.hookimpl(hookwrapper=True)  # type: ignore[misc]
def pytest_runtest_makereport(item: Any, call: Any) -> Generator[None, Any, None]:
    """Puts the end of the log beside a failure."""
    outcome = yield
    report = outcome.get_result()
    if report.when == "call":
        item.stash[_PASSED] = report.passed
    session = item.stash.get(_SESSION, None)
    if session is None or not report.failed or report.when != "call":
        return
    lines = session.log.splitlines()
    first = max(0, len(lines) - SHOWN)
    told = [f"{number:6}  {line}" for number, line in enumerate(lines[first:], first + 1)]
    report.sections.append(("the end of the log of regrun", "\n".join(told)))
