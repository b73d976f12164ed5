"""Tests that wait for a status of a UART, written once, and run on a model, on RTL and on a virtual machine.

The UART is a PL011 by the description of examples/qemu. The model of regrun has no hardware: what the hardware does by
itself is told to it by `hw`, in the fixture `happens`, and nowhere else do the boards differ.
"""

import shutil
from pathlib import Path

import pytest

import regrun
from regrun.targets import GdbServer, Qemu, Simulator, build_icarus

HERE = Path(__file__).parent
DESCRIPTION = HERE.parent / "qemu" / "pl011.toml"
QEMU = "qemu-system-arm -M virt -S -nic none -display none -serial null -monitor none".split()


def needs(tool):
    if shutil.which(tool) is None:
        pytest.skip(f"the Debian package {tool} is not installed")


def target(name, folder):
    """What stands in the device's place; None is the model."""
    if name == "icarus":
        needs("iverilog")
        return Simulator(build_icarus(str(folder), [str(HERE / "bench.v"), str(HERE / "pl011.v")]))
    if name == "qemu":
        needs("qemu-system-arm")
        return Qemu("virt")
    if name == "gdb":
        needs("qemu-system-arm")
        server = [*QEMU, "-gdb", f"unix:{folder}/gdb,server=on,wait=off"]
        return GdbServer(f"{folder}/gdb", command=server, resets={"HARD": "system_reset"})
    return None


@pytest.fixture(params=["model", "icarus", "qemu", "gdb"])
def uart(request, tmp_path):
    with regrun.Session(DESCRIPTION, target(request.param, tmp_path)) as session:
        session.reset("HARD")
        yield session


@pytest.fixture
def happens(request, uart):
    """Says what the hardware does by itself."""
    if "model" in request.node.name:
        return uart.hw
    return lambda field, value: None


@pytest.fixture
def ready(uart):
    """The UART with 16 clocks a bit, 8 bits a byte, and its transmitter on."""
    uart.write("uart.ibrd", 1)
    uart.write("uart.lcr_h.wlen", 3)
    uart.write("uart.cr.uarten", 1)
    uart.check("uart.cr")
    return uart


def test_two_bytes_are_sent(ready, happens):
    for byte in b"ok":
        ready.write("uart.dr", byte)
        happens("uart.ris.txris", 1)
        ready.wait("uart.ris.txris", value=1, timeout=60)
    ready.wait("uart.fr.busy", value=0, timeout=60)
    ready.write("uart.icr", 1 << 5)
    happens("uart.ris.txris", 0)
    ready.expect("uart.ris.txris", 0)


def test_nothing_is_received(ready):
    with pytest.raises(regrun.WaitTimeout) as told:
        ready.wait("uart.ris.rxris", value=1, reads=20, timeout=60)
    assert told.value.reads == 20
