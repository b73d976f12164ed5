"""Sessions over the device model: events, exceptions, and that where an answer ends is never guessed."""

import os
import signal
import time
from pathlib import Path

import pytest
from hypothesis import HealthCheck, given, settings
from hypothesis import strategies as st

import regrun
from chips import CHIP, FIELDS, FLAWS, MAPS, MEMORIES, REGISTERS
from regrun.events import Event
from regrun.targets import Simulator

TOP = Path(__file__).resolve().parents[2]
VALUES = st.one_of(
    st.integers(0, 3), st.integers(0, (1 << 64) - 1), st.sampled_from([0xFF, 0xFFFF, 0xFFFFFFFF])
)
VIA = st.one_of(st.none(), st.sampled_from(MAPS))
REGISTER, FIELD, MEMORY = map(st.sampled_from, (REGISTERS, FIELDS, MEMORIES))
INDEX = st.integers(0, 9)


def calls(method, *operands, via=False):
    """Calls of a method of Session with random operands."""
    return st.tuples(st.just(method), st.tuples(*operands, *([VIA] if via else [])))


CALLS = st.one_of(
    *(calls(it, REGISTER, via=True) for it in ("read", "mirror", "check", "update", "other_read")),
    *(calls(it, REGISTER, VALUES, via=True) for it in ("write", "other_write")),
    *(calls(it, REGISTER) for it in ("show", "peek", "back_read", "back_check")),
    *(calls(it, REGISTER, VALUES) for it in ("poke", "back_write")),
    *(calls(it, FIELD, VALUES) for it in ("set", "hw")),
    calls("field_write", FIELD, VALUES, via=True),
    calls("field_read", FIELD, via=True),
    calls("mem_read", MEMORY, INDEX, via=True),
    *(calls(it, MEMORY, INDEX, VALUES, via=True) for it in ("mem_write", "mem_check")),
    calls("mem_peek", MEMORY, INDEX),
    calls("mem_poke", MEMORY, INDEX, VALUES),
    calls(
        "burst_write",
        MEMORY,
        INDEX,
        st.lists(st.integers(0, 0xFFFFFFFF), min_size=1, max_size=4),
        via=True,
    ),
    calls("burst_read", MEMORY, INDEX, st.integers(1, 5), via=True),
    calls("reset", st.sampled_from(["HARD", "SOFT"])),
    calls(
        "seq", st.sampled_from(["hw-reset", "shared", "mem-walk"]), st.sampled_from(["top", "*"])
    ),
)


def spelled(event, digits):
    """An event's line, made of nothing but its attributes."""
    if event.result == "refused":
        return f"{event.text}: refused {event.reason}"
    value = "" if event.value is None else f" 0x{event.value:0{digits[0]}x}"
    mirror = "" if event.mirrored is None else f" mirror 0x{event.mirrored:0{digits[1]}x}"
    if event.result == "bus error":
        return f"{event.text}: bus error at word {event.failed_word}{mirror}"
    if event.operation == "update":
        value = f" sent{value}" if value else " none"
    desired = "" if event.desired is None else f" desired 0x{event.desired:0{digits[1]}x}"
    differ = f" {' '.join(('differ', *event.differ))}" if event.differs else ""
    return f"{event.text}: ok{value}{desired}{mirror}{differ}"


def digits_of(chip, event):
    """The hexadecimal digits of the value read and of the mirror."""
    registers, memories = chip.registers, chip.memories
    if event.item in memories:
        return 2 * memories[event.item].bytes, 0
    owner = event.item if event.item in registers else event.item.rpartition(".")[0]
    whole = 2 * registers[owner].bytes if owner in registers else 0
    field = (
        next((it for it in registers[owner].fields if f"{owner}.{it.name}" == event.item), None)
        if whole
        else None
    )
    return (-(-field.width // 4) if field else whole), whole


@settings(max_examples=15, deadline=None, suppress_health_check=list(HealthCheck))
@given(todo=st.lists(CALLS, min_size=1, max_size=25), flawed=st.booleans())
def test_what_python_says_is_what_the_log_says(program, run, todo, flawed):
    """The kept log is that of the whole session, and each event says what its lines say."""
    told = []
    with regrun.Session(CHIP + (FLAWS if flawed else ""), program=program, on_error="return") as s:
        for method, operands in todo:
            told += getattr(s, method)(*operands).events
        chip = s.chip
    assert run(s.session) == (s.log, s.status)
    printed = [line for line in s.log.splitlines() if not line.startswith(("seq ", "end: "))]
    assert [line for event in told for line in event.log.splitlines()] == printed
    assert [spelled(it, digits_of(chip, it)) for it in told] == [it.raw for it in told]
    lines = s.log.splitlines()
    assert [lines[it.line - 1] for it in told] == [it.raw for it in told]
    assert s.events == len(told)
    for event in told:
        if event.operation in ("check", "back-check") and event.result == "ok":
            fields = chip.registers[event.item].fields
            odd = event.value ^ event.expected
            assert event.differ == tuple(it.name for it in fields if it.compared and odd & it.mask)


# A program that writes each answer in pieces, with pauses, and keeps the one promise: all of it before it reads on.
DRIPS = """
import os, sys, time
def say(text):
    data = text.encode()
    for at in range(0, len(data), PIECE):
        os.write(1, data[at:at + PIECE]); time.sleep(PAUSE)
lines = os.fdopen(0, "rb", buffering=0)
while lines.readline().rstrip() != b"---":
    pass
events = turn = 0
while True:
    line = lines.readline().decode()
    if not line:
        break
    if not line.strip():
        continue
    events += 1
    say(line.strip() + " @bus: ok 0x00000001 mirror 0x00000001\\n")
    for word in range(WORDS[line.split()[1]]):
        say(f"  bus r {word:#x} 0x01 1 #{turn} ok\\n"); turn += 1
say(f"end: {events} events, 0 differences, 0 bus errors\\n")
"""


@pytest.mark.parametrize("piece, pause", [(1, 0), (7, 0.001), (37, 0.002), (4096, 0.01)])
def test_an_answer_ends_where_it_ends(script, piece, pause):
    """However an answer is cut into pieces, the session has all of it, the first time and after."""
    words = {"top.ctrl": 4, "top.stat": 2, "wide": 0}
    text = f"PIECE, PAUSE, WORDS = {piece}, {pause}, {words}\n{DRIPS}"
    with regrun.Session(CHIP, program=script(text)) as s:
        for _ in range(3):
            for register, count in words.items():
                assert len(s.read(register).items) == count
    assert s.events == 9


def test_a_memory_ends_with_its_last_location(script):
    text = f"PIECE, PAUSE, WORDS = 4096, 0, {{'top.ram': 1}}\n{DRIPS}"
    with regrun.Session(CHIP, program=script(text)) as s:
        assert list(s.top.ram) == [1] * 8
    assert s.events == 8


def test_a_script_is_promised_its_log(program):
    """What the sessions rest on: where a program has taken a further line, the log of those before stands in the pipe."""
    with regrun.Session(CHIP, program=program) as s:
        for turn in range(50):
            found = s.do("read wide @second")
            assert [len(it.items) for it in found] == [8], turn


# An operation, the exception, and what its text says.
WRONG = [
    (
        lambda s: s.write("top.ctrl", 1 << 40),
        regrun.Refused,
        ["write top.ctrl 0x10000000000 @bus: refused too wide (line "],
    ),
    (lambda s: s.write("locked", 1), regrun.Refused, ["refused no right"]),
    (lambda s: s.peek("locked"), regrun.Refused, ["refused no backdoor"]),
    (lambda s: s.read("nowhere"), regrun.Refused, ["refused not placed"]),
    (lambda s: s.mem_read("top.ram", 8), regrun.Refused, ["refused out of range"]),
    (
        lambda s: s.burst_write("rom", 0, [1]),
        regrun.Refused,
        ["burst-write rom 0x0 count 1", "refused not writable"],
    ),
    (
        lambda s: s.read("wide"),
        regrun.BusError,
        ["read wide @bus: bus error at word 1 (line ", "bus r 0xc 0x00000000 1111 #"],
    ),
    (lambda s: s.write("wide", 1), regrun.BusError, ["bus error at word 1"]),
    (
        lambda s: s.seq("access", "top"),
        regrun.Difference,
        ["seq access top:", "the first:", ">  mode        6:4"],
    ),
    (
        lambda s: s.seq("mem-walk", "empty"),
        regrun.NoSteps,
        ["seq mem-walk empty: no step was made (line "],
    ),
    (
        lambda s: s.write("top.ctr", 1),
        regrun.UnknownName,
        ["no such register: 'top.ctr'; near it: top.ctrl"],
    ),
    (lambda s: s.set("top.ctrl.enabel", 1), regrun.UnknownName, ["near it: top.ctrl.enable"]),
    (
        lambda s: s.read("top.ctrl", "buss"),
        regrun.UnknownName,
        ["no such map: 'buss'; near it: bus"],
    ),
    (lambda s: s.reset("hard"), regrun.UnknownName, ["no such kind of reset: 'hard'"]),
    (lambda s: s.write("top.ctrl", -1), ValueError, ["0 to 2^64-1"]),
    (lambda s: s.write("top.ctrl", 1.5), TypeError, ["float"]),
    (lambda s: s.expect("top.stat", 0, mask=0), ValueError, ["compares nothing"]),
    (lambda s: s.wait("top.stat", mask=0), ValueError, ["compares nothing"]),
    (lambda s: s.burst_read("rom", 0, 0), ValueError, ["1 to 256 locations, and not 0"]),
    (lambda s: s.burst_write("top.ram", 0, [1 << 63] * 256), ValueError, ["4096 are the most"]),
    (lambda s: s.do("seq mem-walk empty"), regrun.NoSteps, ["no step was made"]),
    (lambda s: s.do("read top.ctrl\nread wide"), ValueError, ["not one line"]),
    (
        lambda s: s.expect("top.stat", 0x9, mask=0xF),
        regrun.Unexpected,
        ["expected 0x9 in the bits 0xf, read 0x0", ">  done"],
    ),
    (
        lambda s: s.expect("top.stat.count", 3),
        regrun.Unexpected,
        ["field-read top.stat.count @bus: expected 0x3, read 0x0"],
    ),
    (
        lambda s: s.wait("top.stat", 1, reads=3, timeout=60),
        regrun.WaitTimeout,
        ["waited for 0x1 in the bits 0x1", "given up after 3 reads"],
    ),
    (
        lambda s: s.wait("top.stat.done", value=1, timeout=0.05),
        regrun.WaitTimeout,
        ["waited for 0x1, read 0x0"],
    ),
]


def test_what_goes_wrong_is_raised(program):
    """Nothing that goes wrong passes, nothing ends the session, and on request the event is returned."""
    chip = f'[[block]]\nname = "empty"\n{CHIP}{FLAWS}'
    with regrun.Session(chip, program=program) as s:
        for do, cause, texts in WRONG:
            with pytest.raises(cause) as raised:
                do(s)
            assert [it for it in texts if it not in str(raised.value)] == [], str(raised.value)
            if isinstance(raised.value, regrun.OperationError) and isinstance(
                raised.value.event, Event
            ):
                assert s.log.splitlines()[raised.value.line - 1] == raised.value.event.raw
        assert s.read("wide", on_error="return").result == "bus error"
        assert not s.seq("shared", "empty", on_error="return").ok
    assert s.status == 1


# A misuse, its exception, and what the text of that says.
MISUSED = [
    (lambda s: s.top.ctrl == 5, TypeError, "top.ctrl is no number: int() reads it"),
    (lambda s: s.top.ctrl.enable != 0, TypeError, "top.ctrl.enable is no number"),
    (lambda s: bool(s.top.stat.done), TypeError, "top.stat.done is no number"),
    (lambda s: s.write("top.ctrl", None), TypeError, "a value of top.ctrl is a number, and"),
    (lambda s: s.hw("top.stat.done", None), TypeError, "a value of top.stat.done is a number"),
    (lambda s: s.poke("top.ctrl", -1), ValueError, "a value of top.ctrl is 0 to 2^64-1: -1"),
    (lambda s: s.mem_write("top.ram", 0, None), TypeError, "a value of top.ram is a number"),
    (lambda s: s.expect("top.ctrl", 1, mask="mode"), TypeError, "a number, and not 'mode'"),
    (lambda s: s.wait("top.stat", "done"), TypeError, "a mask is a number, and not 'done'"),
    (lambda s: s.wait("top.stat.done", 0), ValueError, "nothing; a value is given by value=0"),
    (lambda s: s.do("read tôp"), ValueError, "a line of a script is ASCII: 'read tôp'"),
    (lambda s: s.do(None), ValueError, "not one line: None"),
]


def test_a_misuse_sends_nothing(script):
    """So any program will do."""
    with regrun.Session(CHIP, program=script(f"PIECE, PAUSE, WORDS = 4096, 0, {{}}\n{DRIPS}")) as s:
        sent = s.session
        for do, cause, text in MISUSED:
            with pytest.raises(cause) as raised:
                do(s)
            assert text in str(raised.value)
        assert (s.events, s.session) == (0, sent)


def test_a_difference_shows_the_fields_side_by_side(program):
    """The mode was mirrored as 5 after the reset, and bit 1 of it is stuck at 1: so it is read as 7."""
    with regrun.Session(CHIP + FLAWS, program=program) as s:
        with pytest.raises(regrun.Difference) as raised:
            s.check("top.ctrl")
    assert str(raised.value).splitlines() == [
        "check top.ctrl @bus: 1 field differs (line 1 of the log)",
        "     field       bits   expected    read",
        "     level       23:16  0x8         0x8",
        "  >  mode        6:4    0x5         0x7",
        "     enable      0      0x0         0x0",
        "     (register)  31:0   0x00080050  0x00080070",
    ]
    assert raised.value.fields == [("mode", 4, 3, 5, 7)]
    assert isinstance(raised.value, AssertionError)


def test_a_line_that_is_refused_ends_the_session(program):
    with regrun.Session(CHIP, program=program) as s:
        s.read("top.ctrl")
        with pytest.raises(
            regrun.LineRefused, match="`raed top.ctrl`: refused line .*: no such command"
        ):
            s.do("raed top.ctrl")
        with pytest.raises(regrun.ProgramEnded, match="the session is refused"):
            s.read("top.ctrl")
    with regrun.Session(CHIP, program=program, on_error="return") as s:
        (event,) = s.do("read top.nothing")
        assert (event.text, event.result, event.reason) == (
            "read top.nothing",
            "refused",
            "no such name",
        )
        s.close()


def test_by_attribute(program):
    with regrun.Session(CHIP, program=program, notes=None) as s:
        s.top.ctrl.enable = 1
        s.top.ctrl.update(mode=3, level=0x12)
        assert [int(s.top.ctrl), int(s.top.ctrl.level), s.top.ctrl.mode.mirrored] == [
            0x120031,
            0x12,
            3,
        ]
        s.top.ram[2] = 7
        s.top.ram[3:5] = [8, 9]
        assert [s.top.ram[2], s.top.ram[2:5], len(s.top.ram)] == [7, [7, 8, 9], 8]
        s.wide = 5
        assert int(s["wide"]) == 5
        assert s.events == 15
        for wrong in ("s.top.ctrl.enabel = 1", "s.top.ctr", "s.top.ram = 1", "s.top = 1"):
            with pytest.raises(regrun.UnknownName):
                exec(wrong)


def test_wait_reads_until_it_is_so(program):
    with regrun.Session(CHIP, program=program) as s:
        s.hw("top.stat.done", 1)
        event = s.wait("top.stat", mask=1, value=1, timeout=1.0, reads=10)
        assert (event.value, s.events) == (1, 2)


# What ends a program, and what the exception says.
ENDS = [
    ("import os, signal; os.kill(os.getpid(), signal.SIGKILL)", r"signal 9 \(SIGKILL\)"),
    (
        "import sys; sys.stderr.write('no room'); sys.exit(4)",
        r"status 4 \(its output couldn't be written\): no room",
    ),
    ("import sys; sys.exit(5)", r"status 5 \(memory was wanting\)"),
    ("import sys; sys.exit(69)", r"status 69 \(rt wasn't found\)"),
    ("import time; time.sleep(20)", r"written nothing for 0.3 s"),
]


@pytest.mark.parametrize("text, cause", ENDS, ids=[cause for _, cause in ENDS])
def test_a_program_that_ends_is_named(script, text, cause):
    silence = 0.3 if "0.3 s" in cause else 30.0
    with pytest.raises(regrun.ProgramEnded, match=cause):
        regrun.Session(CHIP, program=script(text), silence=silence)


def test_a_program_that_is_killed_between_two_lines(program):
    with regrun.Session(CHIP, program=program) as s:
        s.read("top.ctrl")
        os.kill(s._program._process.pid, signal.SIGKILL)
        time.sleep(0.05)
        with pytest.raises(regrun.ProgramEnded, match="SIGKILL"):
            s.read("top.ctrl")
        with pytest.raises(regrun.ProgramEnded, match="SIGKILL"):
            s.read("top.ctrl")


def test_no_program(monkeypatch):
    monkeypatch.setenv("REGRUN", "/nowhere/regrun")
    with pytest.raises(regrun.ProgramNotFound, match="REGRUN: no such program: /nowhere/regrun"):
        regrun.Session(CHIP)
    with pytest.raises(regrun.ProgramNotFound, match=f"program: it can't be executed: {__file__}"):
        regrun.Session(CHIP, program=__file__)


@pytest.mark.parametrize("target", [Simulator, "vvp bench", 5], ids=str)
def test_what_is_no_target(target):
    with pytest.raises(TypeError, match="a target is made by a class of regrun.targets, and this"):
        regrun.Session(CHIP, target)


@pytest.mark.parametrize("status", [0, 70])
def test_the_launcher_of_a_checkout_is_asked_for_its_program(program, tmp_path, status):
    """It takes the word --program, and may compile the program first."""
    launcher = tmp_path / "regrun"
    launcher.write_text(
        f"#!/bin/sh\n[ $* = --program ] && [ {status} = 0 ] && echo '{program}'\nexit {status}\n"
    )
    launcher.chmod(0o755)
    (tmp_path / "crates.txt").touch()
    if status:
        with pytest.raises(regrun.ProgramNotFound, match="regrun couldn't be built"):
            regrun.Session(CHIP, program=str(launcher))
        return
    with regrun.Session(CHIP, program=str(launcher)) as s:
        assert s.read("top.ctrl").value == 0x80050


def test_a_full_disk_is_named(program):
    with pytest.raises(regrun.LogError, match="the log can't be written: No space left on device"):
        with regrun.Session(CHIP, program=program, log="/dev/full") as s:
            s.read("top.ctrl")


def test_the_log_is_kept(program, run, tmp_path):
    with regrun.Session(CHIP, program=program, log=tmp_path / "it.log") as s:
        s.write("top.ctrl", 5)
        assert (tmp_path / "it.log").read_text() == s.log
    assert ((tmp_path / "it.log").read_text(), 0) == run(s.session)


def test_a_replay_is_the_same_log(program, run, tmp_path):
    """What stands before the first colon of each event is a line of a script: so says the guide."""
    with regrun.Session(CHIP + FLAWS, program=program, on_error="return") as s:
        for register in REGISTERS:
            s.check(register)
            s.write(register, 3)
            s.check(register)
    operations = [
        it.split(":")[0] for it in s.log.splitlines() if not it.startswith(("  ", "end: "))
    ]
    assert run("\n".join([CHIP + FLAWS, "---", *operations, ""])) == (s.log, s.status)
