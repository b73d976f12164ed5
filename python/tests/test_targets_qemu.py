"""The devices of a virtual machine by qtest, over the machine `virt` of QEMU."""

from __future__ import annotations

import os
import shutil
import signal
from pathlib import Path
from typing import Dict, Iterator

import pytest

from regrun.targets import (
    Port,
    Qemu,
    TargetEnded,
    TargetError,
    TargetStartError,
    TargetTimeout,
    TargetWriteError,
)

pytestmark = pytest.mark.skipif(
    shutil.which("qemu-system-arm") is None,
    reason="the Debian package qemu-system-arm is not installed",
)

# By the manuals: UARTIBRD of the PL011 (ARM DDI 0183) has 16 bits and begins at 0; GPIODIR of the PL061 (ARM DDI 0190) has
# 8 and begins at 0; the identification registers of either end in 0x0d, 0xf0, 0x05, 0xb1.
DIVIDER, DIRECTION, HOLE = 0x09000024, 0x09030400, 0x50000000
KILOBYTE = 1 << 10


@pytest.fixture
def machine() -> Iterator[Qemu]:
    with Qemu("virt", timeout=60.0) as running:
        yield running


def read(address: int, lanes: str = "1111") -> str:
    return f"r bus {address:#x} 0x0 {lanes} #0"


def write(address: int, value: int, lanes: str = "1111") -> str:
    return f"w bus {address:#x} {value:#x} {lanes} #0"


def test_registers_of_two_devices(machine: Qemu) -> None:
    for base in (0x09000FF0, 0x09030FF0):
        got = [machine.answer(read(base + 4 * at)) for at in range(4)]
        assert got == ["ok 0xd", "ok 0xf0", "ok 0x5", "ok 0xb1"]
    assert machine.answer(write(DIVIDER, 0x1234)) == "ok"
    assert machine.answer(read(DIVIDER)) == "ok 0x1234"
    assert [machine.answer(line) for line in ("hw uart.a 0x1", "reset SOFT")] == ["none", "none"]


def test_accesses_of_each_width_reach_memory() -> None:
    with Qemu(
        "virt", ports={"bus": 0x40000000 + KILOBYTE, "words": Port(0x40000000 + KILOBYTE, unit=4)}
    ) as machine:
        assert machine.answer(write(0, 0x8877665544332211, "11111111")) == "ok"
        assert machine.answer(write(2, 0xAAAA, "11")) == "ok"
        assert machine.answer(write(4, 0xBB00, "0010")) == "ok"
        assert machine.answer(read(0, "11111111")) == "ok 0x8877bb55aaaa2211"
        assert machine.answer("r words 0x1 0x0 1111 #0") == "ok 0x8877bb55"
        assert machine.answer(read(7, "1")) == "ok 0x88"


def test_a_hole_is_a_bus_error_unless_it_is_asked_for(machine: Qemu) -> None:
    assert [machine.answer(read(HOLE)), machine.answer(write(HOLE, 1))] == ["error", "error"]
    assert machine.notes[-2] == f"nothing is mapped at {HOLE:#x}: `{read(HOLE)}`"
    assert machine.answer(read(DIVIDER)) == "ok 0x0"
    with Qemu("virt", holes="zero") as other:
        assert other.answer(read(HOLE)) == "ok 0x0"


@pytest.mark.parametrize(
    "how, left", [("restart", {DIVIDER: 0, DIRECTION: 0}), ("system_reset", {DIRECTION: 0})]
)
def test_a_reset(how: str, left: Dict[int, int]) -> None:
    """QEMU's own reset reaches the PL061; whether it reaches the PL011 depends on QEMU's version, so it isn't asked here."""
    with Qemu("virt", reset=how) as machine:
        for address in (DIVIDER, DIRECTION):
            assert machine.answer(write(address, 0x55)) == "ok"
            assert machine.answer(read(address)) == "ok 0x55"
        assert machine.answer("reset HARD") == "ok"
        assert {address: machine.answer(read(address)) for address in left} == {
            address: f"ok {value:#x}" for address, value in left.items()
        }


def test_a_write_that_is_read_back() -> None:
    with Qemu("virt", verify=lambda access: access.address != 0x09000044) as machine:
        assert machine.answer(write(DIVIDER, 0x1234)) == "ok"
        assert machine.answer(write(0x09000044, 0x7FF)) == "ok"
        with pytest.raises(
            TargetWriteError, match="0xee was written at 0x9000fe0, and 0x11 was read back"
        ):
            machine.answer(write(0x09000FE0, 0xEE))


def test_what_a_serial_line_sends(tmp_path: Path) -> None:
    """UARTCR with UARTEN, TXE and RXE, and then a byte to UARTDR."""
    sent = tmp_path / "sent"
    with Qemu("virt", serial=f"file:{sent}") as machine:
        assert machine.answer(write(0x09000030, 0x301)) == "ok"
        assert machine.answer(write(0x09000000, ord("A"))) == "ok"
    assert sent.read_bytes() == b"A"


def test_the_monitor(machine: Qemu) -> None:
    assert "pl011" in machine.monitor("info mtree")


@pytest.mark.parametrize(
    "machine_words, why",
    [
        ({"machine": "no-such-machine"}, "(?s)ended with the status 1 .*unsupported machine type"),
        ({"machine": "virt", "binary": "no-such-qemu"}, "no-such-qemu can't be started"),
        (
            {"machine": "virt", "args": ["-device", "what"]},
            "'what' is not a valid device model name",
        ),
        ({"machine": "virt", "args": "-device what"}, "'what' is not a valid device model name"),
        ({"machine": "virt", "cpu": "what"}, "(?s)ended with the status 1"),
    ],
)
def test_a_machine_that_cannot_start(machine_words: Dict[str, object], why: str) -> None:
    with pytest.raises(TargetStartError, match=why):
        with Qemu(**machine_words):  # type: ignore[arg-type]
            pass


@pytest.mark.parametrize(
    "number, error, why",
    [
        (signal.SIGKILL, TargetEnded, "qemu-system-arm was ended by SIGKILL before it answered"),
        (signal.SIGSTOP, TargetTimeout, "qemu-system-arm gave no answer within 0.2 s"),
    ],
)
def test_a_machine_that_is_killed_or_stopped(
    machine: Qemu, number: int, error: type, why: str
) -> None:
    machine.timeout = 0.2 if error is TargetTimeout else 60.0
    assert machine._child
    os.kill(machine._child.process.pid, number)
    with pytest.raises(error, match=why) as told:
        machine.answer(read(DIVIDER))
    assert told.value.request == read(DIVIDER)
    with pytest.raises(TargetError, match="nothing is sent any more"):
        machine.answer(read(DIVIDER))


def test_nothing_is_left(machine: Qemu) -> None:
    child = machine._child
    assert child
    machine.close()
    assert child.process.returncode is not None
    with pytest.raises(ProcessLookupError):
        os.killpg(child.process.pid, 0)
