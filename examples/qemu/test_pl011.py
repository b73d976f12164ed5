"""The PL011 of QEMU's machine `virt`, held to its manual (ARM DDI 0183): no firmware runs, the test is the processor."""

from pathlib import Path

import pytest

import regrun
from regrun.targets import Qemu

# QEMU's UART says that it is of revision r1p1, where the description follows the manual of r1p5.
WAIVED = {("uart.periphid2", "revision")}


@pytest.fixture
def uart():
    description = Path(__file__).with_name("pl011.toml")
    with regrun.Session(description, Qemu("virt")) as session:
        session.reset("HARD")
        yield session


def differing(run):
    """Register and field of each difference of a sequence."""
    return {(event.item, field) for event in run.events for field in event.differ}


def test_reset_values(uart):
    run = uart.seq("hw-reset", "uart", on_error="return")
    assert run.bus_errors == 0
    assert differing(run) == WAIVED


def test_the_difference_is_shown(uart):
    with pytest.raises(regrun.Difference) as told:
        uart.check("uart.periphid2")
    (field,) = told.value.fields
    assert (field.name, field.expected, field.read) == ("revision", 3, 1)


def test_each_bit_can_be_written(uart):
    run = uart.seq("bit-bash", "uart")
    assert run.steps > 200


def test_a_byte_is_sent(uart):
    uart.write("uart.lcr_h.wlen", 3)
    uart.write("uart.cr.uarten", 1)
    uart.write("uart.dr", 0x41)
    uart.wait("uart.ris.txris", value=1, timeout=1)
    uart.write("uart.icr", 1 << 5)
    uart.expect("uart.ris.txris", 0)
