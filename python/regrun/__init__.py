"""Sessions of register operations from Python: Session runs them, Description describes the chip, errors say what differs."""

from pathlib import Path as _Path

from .description import Block, Description, Field, Map, Memory, Register, RegisterFile
from .errors import (
    BusError,
    DescriptionError,
    DescriptionRefused,
    Difference,
    FieldDifference,
    LineRefused,
    LinkBroken,
    LogError,
    NoSteps,
    NotDone,
    OperationError,
    ProgramEnded,
    ProgramNotFound,
    ProtocolError,
    Refused,
    RegrunError,
    TargetError,
    Unexpected,
    UnknownName,
    WaitTimeout,
)
from .events import Burst, Event, Item, SequenceRun
from .session import Session


def __getattr__(name: str) -> str:
    """`__version__`: that of the checkout which the package stands in, or of the installed package."""
    if name != "__version__":
        raise AttributeError(f"module {__name__!r} has no attribute {name!r}")
    beside = _Path(__file__).resolve().parents[1] / "VERSION"
    if beside.exists():
        return beside.read_text(encoding="ascii").strip()
    from importlib import metadata

    return metadata.version("regrun")


__all__ = [
    "Block",
    "Burst",
    "BusError",
    "Description",
    "DescriptionError",
    "DescriptionRefused",
    "Difference",
    "Event",
    "Field",
    "FieldDifference",
    "Item",
    "LineRefused",
    "LinkBroken",
    "LogError",
    "Map",
    "Memory",
    "NoSteps",
    "NotDone",
    "OperationError",
    "ProgramEnded",
    "ProgramNotFound",
    "ProtocolError",
    "Refused",
    "Register",
    "RegisterFile",
    "RegrunError",
    "SequenceRun",
    "Session",
    "TargetError",
    "Unexpected",
    "UnknownName",
    "WaitTimeout",
]
