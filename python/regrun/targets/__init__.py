"""What a session may run on beside the model: a simulator, a virtual machine, a debug probe, a board."""

from __future__ import annotations

from regrun.targets.base import (
    Access,
    MemoryTarget,
    Port,
    Request,
    Target,
    TargetAnswerError,
    TargetEnded,
    TargetError,
    TargetRefused,
    TargetStartError,
    TargetTimeout,
    TargetWriteError,
)
from regrun.targets.devmem import DevMem
from regrun.targets.gdb import GdbServer
from regrun.targets.qemu import Qemu
from regrun.targets.simulator import Simulator, build_ghdl, build_icarus, build_verilator

__all__ = [
    "Access",
    "DevMem",
    "GdbServer",
    "MemoryTarget",
    "Port",
    "Qemu",
    "Request",
    "Simulator",
    "Target",
    "TargetAnswerError",
    "TargetEnded",
    "TargetError",
    "TargetRefused",
    "TargetStartError",
    "TargetTimeout",
    "TargetWriteError",
    "build_ghdl",
    "build_icarus",
    "build_verilator",
]
