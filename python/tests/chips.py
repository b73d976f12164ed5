"""Descriptions that the tests share."""

# A register of three bytes over two maps of a tree, a register of one word beside it, a field that may stand alone, a memory,
# a bus that predicts explicitly, and a register that no map has.
CHIP = """
[[block]]
name = "top"
[[reg]]
name = "ctrl"
of = "top"
bytes = 4
field = [
    { name = "enable", lsb = 0, width = 1, policy = "RW", reset = 0 },
    { name = "mode", lsb = 4, width = 3, policy = "RW", reset = { HARD = 5, SOFT = 2 } },
    { name = "level", lsb = 16, width = 8, policy = "RW", reset = 8, alone = true },
]
[[reg]]
name = "stat"
of = "top"
bytes = 2
field = [
    { name = "done", lsb = 0, width = 1, policy = "W1C", volatile = true, compare = true, reset = 0 },
    { name = "count", lsb = 8, width = 8, policy = "RC", volatile = true, reset = 0 },
]
[[reg]]
name = "wide"
bytes = 8
field = [{ name = "all", lsb = 0, width = 64, policy = "RW", reset = "0x8000000000000001" }]
[[reg]]
name = "locked"
bytes = 1
backdoor = false
field = [{ name = "key", lsb = 0, width = 8, policy = "RO", reset = 0x5a }]
[[reg]]
name = "nowhere"
bytes = 1
[[mem]]
name = "ram"
of = "top"
bytes = 4
size = 8
[[mem]]
name = "rom"
bytes = 2
size = 4
access = "ro"
[[map]]
name = "bus"
bytes = 4
[[map]]
name = "half"
bytes = 2
endian = "big"
parent = "bus"
offset = 0x100
[[map]]
name = "second"
bytes = 1
predict = "explicit"
[[place]]
map = "bus"
item = "top.ctrl"
[[place]]
map = "half"
item = "top.ctrl"
offset = 0x10
[[place]]
map = "bus"
item = "top.stat"
offset = 4
[[place]]
map = "bus"
item = "wide"
offset = 8
[[place]]
map = "second"
item = "wide"
offset = 8
[[place]]
map = "bus"
item = "locked"
offset = 0x10
rights = "ro"
[[place]]
map = "half"
item = "top.ram"
offset = 0x40
[[place]]
map = "bus"
item = "rom"
offset = 0x80
"""

FLAWS = """
[[flaw]]
kind = "error-range"
map = "bus"
from = 12
to = 12
[[flaw]]
kind = "stuck"
field = "top.ctrl.mode"
bit = 1
value = 1
"""

REGISTERS = ["top.ctrl", "top.stat", "wide", "locked", "nowhere"]
FIELDS = [
    "top.ctrl.enable",
    "top.ctrl.mode",
    "top.ctrl.level",
    "top.stat.done",
    "top.stat.count",
    "wide.all",
    "locked.key",
]
MEMORIES = ["top.ram", "rom"]
MAPS = ["bus", "half", "second"]
