"""Each test runs over the device model, and over the RTL of examples/rtl in Icarus Verilog where that is installed."""

import shutil
from pathlib import Path

import pytest

import chip

RTL = Path(__file__).resolve().parents[1] / "rtl"


def built(folder, *defines):
    """The command of a simulation of the RTL."""
    targets = pytest.importorskip("regrun.targets")
    if shutil.which("iverilog") is None:
        pytest.skip("the Debian package iverilog isn't installed")
    return targets.build_icarus(
        str(folder), [str(RTL / "bench.v"), str(RTL / "uart_regs.v")], defines
    )


def simulator(command):
    """A target that runs a simulation."""
    from regrun.targets import Simulator

    return Simulator(command)


@pytest.fixture(scope="session")
def bench(tmp_path_factory):
    """The RTL as it should be, built once."""
    return built(tmp_path_factory.mktemp("bench"))


@pytest.fixture(scope="session")
def wrong_bench(tmp_path_factory):
    """The RTL with two faults: a reset value, and a bit of the divider that is wired to its neighbour."""
    return built(tmp_path_factory.mktemp("wrong"), "WRONG")


@pytest.fixture(scope="session")
def regrun_description():
    return chip.chip()


@pytest.fixture(params=["model", "icarus"])
def regrun_target(request):
    return None if request.param == "model" else simulator(request.getfixturevalue("bench"))


@pytest.fixture
def uart(regrun_session):
    """The block after a reset: RTL isn't reset by itself."""
    regrun_session.reset("HARD")
    return regrun_session.uart
