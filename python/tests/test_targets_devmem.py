"""Mapped registers: a plain file in the place of /dev/mem."""

from __future__ import annotations

import os
import signal
from pathlib import Path
from typing import Dict

import pytest

from regrun.targets import DevMem, TargetEnded, TargetError, TargetStartError, TargetTimeout

BASE, PAGE = 0x40000000, 4096


@pytest.fixture
def registers(tmp_path: Path) -> Path:
    path = tmp_path / "registers"
    path.write_bytes(bytes(range(256)) * (2 * PAGE // 256))
    return path


@pytest.mark.parametrize("words", [{}, {"remote": ["sh", "-c"]}], ids=["here", "by a command"])
def test_accesses_of_each_width(registers: Path, words: Dict[str, object]) -> None:
    with DevMem(BASE, path=str(registers), **words) as board:  # type: ignore[arg-type]
        asked = [
            (f"r bus {BASE + 4:#x} 0x0 1111 #0", "ok 0x7060504"),
            (f"r bus {BASE + 4:#x} 0x0 0010 #1", "ok 0x500"),
            (f"r bus {BASE + 8:#x} 0x0 11111111 #2", "ok 0xf0e0d0c0b0a0908"),
            (f"w bus {BASE + 4:#x} 0xaabbccdd 1100 #3", "ok"),
            (f"r bus {BASE + 4:#x} 0x0 1111 #4", "ok 0xaabb0504"),
            (f"r bus {BASE + PAGE:#x} 0x0 1111 #5", "error"),
            (f"w bus {BASE - 4:#x} 0x0 1111 #6", "error"),
            ("reset HARD", "none"),
            ("hw a.b 0x1", "none"),
        ]
        assert [board.answer(request) for request, _ in asked] == [want for _, want in asked]
        assert (
            board.notes[-1]
            == f"{BASE - 4:#x} isn't in the mapping: `w bus {BASE - 4:#x} 0x0 1111 #6`"
        )
    assert registers.read_bytes()[:8] == bytes([0, 1, 2, 3, 4, 5, 0xBB, 0xAA])


def test_a_window_in_the_midst_of_a_file(registers: Path) -> None:
    with DevMem(BASE, 16, path=str(registers), offset=PAGE + 32) as board:
        assert board.answer(f"r bus {BASE + 12:#x} 0x0 1111 #0") == "ok 0x2f2e2d2c"
        assert board.answer(f"r bus {BASE + 16:#x} 0x0 1111 #1") == "error"


def test_a_bus_error_is_an_answer(registers: Path) -> None:
    """A page past the end of a file that was cut raises SIGBUS, as an address of a board does where nothing answers."""
    with DevMem(BASE, 2 * PAGE, path=str(registers)) as board:
        os.truncate(registers, PAGE)
        assert board.answer(f"r bus {BASE + PAGE:#x} 0x0 1111 #0") == "error"
        assert board.notes[-1].startswith(f"a bus error (SIGBUS) at {BASE + PAGE:#x}")
        os.truncate(registers, 2 * PAGE)
        assert board.answer(f"r bus {BASE + 4:#x} 0x0 1111 #1") == "ok 0x7060504"


@pytest.mark.parametrize(
    "number, error, why",
    [
        (signal.SIGKILL, TargetEnded, "was ended by SIGKILL"),
        (signal.SIGSTOP, TargetTimeout, "no answer within 0.2 s"),
    ],
)
def test_an_access_that_never_ends(registers: Path, number: int, error: type, why: str) -> None:
    with DevMem(BASE, path=str(registers)) as board:
        board.timeout = 0.2 if error is TargetTimeout else 60.0
        assert board._child
        os.kill(board._child.process.pid, number)
        with pytest.raises(error, match=why):
            board.answer(f"r bus {BASE:#x} 0x0 1111 #0")
        with pytest.raises(TargetError, match="nothing is sent any more"):
            board.answer(f"r bus {BASE:#x} 0x0 1111 #1")


@pytest.mark.parametrize(
    "words, why",
    [
        ({"path": "/no/such/file"}, "/no/such/file can't be mapped: .*No such file"),
        ({"remote": ["no-such-shell"]}, "no-such-shell can't be started"),
        ({"remote": ["false"]}, "false ended with the status 1"),
        ({"remote": "false root@board"}, "false ended with the status 1"),
        ({"size": 3 * PAGE}, "can't be mapped: mmap length is greater than file size"),
    ],
)
def test_what_cannot_be_mapped(registers: Path, words: Dict[str, object], why: str) -> None:
    with pytest.raises(TargetStartError, match=why):
        with DevMem(BASE, **{"path": str(registers), **words}):  # type: ignore[arg-type]
            pass
