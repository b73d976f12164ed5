"""The requests of a link, and which loads and stores they are."""

from __future__ import annotations

from pathlib import Path
from typing import Dict, Optional

import pytest

from regrun.targets import (
    Access,
    MemoryTarget,
    Port,
    Request,
    Target,
    TargetError,
    TargetRefused,
    TargetWriteError,
)


class Bytes(MemoryTarget):
    """A memory of 256 bytes that fails from 0x80 on, and whose byte 0x40 can't be written."""

    def __init__(self, **words: object) -> None:
        super().__init__(**words)  # type: ignore[arg-type]
        self.held = bytearray(range(256))
        self.sizes: list[int] = []

    def load(self, access: Access) -> Optional[int]:
        self.sizes.append(access.size)
        if access.address >= 0x80:
            return None
        return int.from_bytes(self.held[access.address : access.address + access.size], "little")

    def store(self, access: Access) -> bool:
        self.sizes.append(access.size)
        if access.address >= 0x80:
            return False
        if access.address != 0x40:
            self.held[access.address : access.address + access.size] = access.value.to_bytes(
                access.size, "little"
            )
        return True


@pytest.mark.parametrize(
    "line, want",
    [
        ("w apb 0x40000004 0x1f 0011 #7", ("w", "apb", 0x40000004, 0x1F, "0011", 7)),
        ("r b 0x0 0x0 1 #0", ("r", "b", 0, 0, "1", 0)),
        ("reset SOFT", ("reset", "SOFT", 0, 0, "", 0)),
        ("hw uart.events.sent 0x1", ("hw", "uart.events.sent", 0, 1, "", 0)),
    ],
)
def test_a_request_is_read(line: str, want: tuple) -> None:
    read = Request.parse(line)
    assert (read.verb, read.name, read.address, read.word, read.lanes, read.tag) == want
    assert read.text == line


@pytest.mark.parametrize(
    "line", ["", "r apb 0x0", "w apb 4 0x0 1111 #0", "x apb 0x0 0x0 1 #0", "reset", "reset A B"]
)
def test_another_line_is_refused(line: str) -> None:
    with pytest.raises(TargetError, match="no request"):
        Request.parse(line)


@pytest.mark.parametrize("width", [1, 2, 4, 8])
def test_each_choice_of_lanes(width: int) -> None:
    """Enabled lanes are one access of exactly their bytes where such an access exists, and are refused elsewhere."""
    possible = {
        frozenset(range(first, first + size)): size
        for size in (1, 2, 4, 8)
        for first in range(0, width - size + 1, size)
    }
    word = 0x8877665544332211 & (1 << 8 * width) - 1
    for choice in range(1 << width):
        lanes = frozenset(lane for lane in range(width) if choice >> lane & 1)
        target = Bytes()
        write = f"w bus 0x10 {word:#x} {choice:0{width}b} #0"
        if lanes not in possible:
            with pytest.raises(TargetRefused):
                target.answer(write)
            assert target.sizes == []
            continue
        held = {0x10 + lane: word >> 8 * lane & 0xFF for lane in lanes}
        assert target.answer(write) == "ok"
        assert list(target.held) == [held.get(at, at) for at in range(256)]
        read = sum(byte << 8 * (at - 0x10) for at, byte in held.items())
        assert target.answer(f"r bus 0x10 0x0 {choice:0{width}b} #1") == f"ok {read:#x}"
        assert target.sizes == [possible[lanes]] * 2


@pytest.mark.parametrize(
    "request_line, answer",
    [
        ("r bus 0x20 0x0 1111 #0", "ok 0x23222120"),
        ("r bus 0x80 0x0 1111 #0", "error"),
        ("w bus 0x80 0x0 1111 #0", "error"),
        ("r far 0x1020 0x0 0001 #0", "ok 0x20"),
        ("r words 0x3 0x0 1111 #0", "ok 0x1f1e1d1c"),
        ("reset HARD", "none"),
        ("hw a.b 0x1", "none"),
    ],
)
def test_ports_and_answers(request_line: str, answer: str) -> None:
    target = Bytes(ports={"far": -0x1000, "words": Port(base=0x10, unit=4)})
    assert target.answer(request_line) == answer


def test_an_address_beside_its_width_is_refused() -> None:
    with pytest.raises(
        TargetRefused, match="0x2 is no multiple of 4; the request was `r bus 0x2 0x0 1111 #0`"
    ):
        Bytes().answer("r bus 0x2 0x0 1111 #0")


@pytest.mark.parametrize("verify", [True, lambda access: access.address == 0x40])
def test_a_write_that_is_not_taken(verify: object) -> None:
    target = Bytes(verify=verify)
    assert target.answer("w bus 0x30 0x7 1111 #0") == "ok"
    with pytest.raises(
        TargetWriteError, match="0x7 was written at 0x40, and 0x43424140 was read back"
    ):
        target.answer("w bus 0x40 0x7 1111 #1")
    assert Bytes().answer("w bus 0x40 0x7 1111 #1") == "ok"


def test_a_target_is_closed_also_where_it_cannot_start() -> None:
    done: Dict[str, int] = {}

    class Broken(Target):
        def start(self) -> None:
            raise TargetError("no")

        def answer(self, request: str) -> str:
            return "none"

        def close(self) -> None:
            done["closed"] = 1

    with pytest.raises(TargetError):
        with Broken():
            pass
    assert done == {"closed": 1}


@pytest.mark.parametrize("page", ["README.md", "docs/TARGETS.md"])
def test_the_page_has_the_text_of_the_first_example(page: str) -> None:
    top = Path(__file__).resolve().parents[2]
    text = (top / "examples" / "qemu" / "test_first.py").read_text()
    assert f"```python\n{text}```\n" in (top / page).read_text()
    assert len(text.splitlines()) <= 20
