"""The UART of examples/rtl, described in Python. `python3 chip.py` writes it as chip.toml and chip.notes.toml."""

from regrun import Block, Description, Field, Register

SENT, RECEIVED, OVERRUN, BROKEN = range(4)


def event(name, bit, doc):
    """An event that the hardware sets, and a 1 clears."""
    return Field(name, bit, 1, "W1C", reset=0, volatile=True, compare=True, doc=doc)


ctrl = Register(
    "ctrl",
    bytes=4,
    fields=[
        Field("enable", 0, 1, "RW", reset=0, doc="Sends and receives."),
        Field("parity", 1, 2, "RW", reset=0, values={"none": 0, "even": 1, "odd": 2}),
        Field("stop", 3, 1, "RW", reset=0, values={"one": 0, "two": 1}, doc="Stop bits."),
        Field(
            "level", 8, 4, "RW", reset=8, alone=True, doc="Bytes in the buffer that raise an event."
        ),
    ],
)
baud = Register("baud", 4, [Field("divider", 0, 16, "RW", reset=0x01B2)])
enable = Register("enable", 4, [Field("events", 0, 4, "RW", reset=0)])
events = Register(
    "events",
    bytes=4,
    fields=[
        event("sent", SENT, "A byte is out."),
        event("received", RECEIVED, "A byte is in."),
        event("overrun", OVERRUN, "A byte was lost."),
        event("broken", BROKEN, "The line was low for too long."),
    ],
)
data = Register("data", 4, [Field("byte", 0, 8, "WO", reset=0)])
errors = Register("errors", 4, [Field("count", 0, 8, "RC", reset=0, volatile=True, compare=True)])

uart = Block(
    "uart",
    [
        ctrl.at(0x00),
        baud.at(0x04),
        enable.at(0x08),
        events.at(0x0C),
        data.at(0x10, rights="wo"),
        errors.at(0x14, rights="ro"),
    ],
)


def chip():
    """The whole description: one UART behind an APB of 4 bytes."""
    made = Description()
    made.add(uart, map=made.map("apb", bytes=4, adapter="apb"), offset=0)
    return made


if __name__ == "__main__":
    print(chip().save("chip.toml"))
