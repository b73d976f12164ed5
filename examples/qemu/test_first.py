import pytest
import regrun
from regrun.targets import Qemu


@pytest.fixture
def uart():
    with regrun.Session("examples/qemu/pl011.toml", Qemu("virt")) as session:
        yield session


def test_the_revision_is_not_that_of_the_manual(uart):
    with pytest.raises(regrun.Difference, match="revision"):
        uart.seq("hw-reset", "uart")


def test_a_byte_is_sent(uart):
    uart.write("uart.cr.uarten", 1)
    uart.write("uart.dr", 0x41)
    uart.wait("uart.ris.txris", value=1, timeout=1)
