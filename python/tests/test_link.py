"""Sessions over a target: here a few lines of Python that answer the link's requests."""

import time

import pytest

import regrun

CHIP = """
[[reg]]
name = "ctrl"
bytes = 4
field = [{ name = "value", lsb = 0, width = 32, policy = "RW", reset = 0, volatile = true, compare = true }]
[[map]]
name = "bus"
bytes = 2
[[place]]
map = "bus"
item = "ctrl"
"""


class Words:
    """A target of words by their address. `odd` has other answers by the request's beginning, or exceptions."""

    timeout = 5.0

    def __init__(self, **odd):
        self.odd = {key.replace("_", " "): it for key, it in odd.items()}
        self.words, self.started, self.closed = {}, 0, 0

    def start(self):
        self.started += 1

    def close(self):
        self.closed += 1

    def answer(self, request):
        for begin, odd in self.odd.items():
            if request.startswith(begin):
                if isinstance(odd, Exception):
                    raise odd
                return odd
        verb, *rest = request.split()
        if verb == "w":
            self.words[rest[1]] = rest[2]
            return "ok"
        return f"ok {self.words.get(rest[1], '0x0')}" if verb == "r" else "ok"


def test_a_target_is_asked(link):
    target = Words()
    with regrun.Session(CHIP, target, program=link) as s:
        s.reset("HARD")
        s.write("ctrl", 0x12345678)
        assert s.read("ctrl").value == 0x12345678
        assert target.words == {"0x0": "0x5678", "0x2": "0x1234"}
        target.words["0x2"] = "0x1235"
        with pytest.raises(regrun.Difference) as raised:
            s.check("ctrl")
        assert raised.value.fields == [("value", 0, 32, 0x12345678, 0x12355678)]
        s.expect("ctrl", 0x12355678)
    assert (s.status, target.started, target.closed) == (1, 1, 1)


# What the target answers, what is asked of it, the exception, its text, and the status that is raised behind it, if any.
ANSWERS = [
    ({"r_bus": "error"}, lambda s: s.read("ctrl"), regrun.BusError, "the target answered `error`"),
    ({"r_bus": "none"}, lambda s: s.read("ctrl"), regrun.BusError, "the target answered `none`"),
    (
        {"r_bus": regrun.TargetError("no answer in 5 s")},
        lambda s: s.read("ctrl"),
        regrun.TargetError,
        "no answer in 5 s; .*`r bus 0x0",
    ),
    (
        {"w_bus": regrun.TargetError("gone")},
        lambda s: s.write("ctrl", 1),
        regrun.TargetError,
        "gone; .*`w bus 0x0 0x1 11 #0`",
    ),
    (
        {"r_bus": "ok 0x1\nok 0x2"},
        lambda s: s.read("ctrl"),
        regrun.TargetError,
        "which is no answer; .*`r bus 0x0",
    ),
    (
        {"reset": "ok 0x1"},
        lambda s: s.seq("hw-reset"),
        regrun.TargetError,
        "'ok 0x1', which is no answer; .*`reset HARD`",
    ),
    ({"r_bus": None}, lambda s: s.read("ctrl"), regrun.TargetError, "answered None, which is no"),
    ({"r_bus": "ok 0x1 \n"}, lambda s: s.expect("ctrl", 2), regrun.Unexpected, "read 0x10001"),
    ({"r_bus": KeyError("x")}, lambda s: s.seq("hw-reset"), KeyError, "x"),
    (
        {"hw": "none"},
        lambda s: s.hw("ctrl.value", 1),
        regrun.NotDone,
        "hw ctrl.value 0x1: the target answered `none`",
    ),
    ({"reset": "none"}, lambda s: s.do("reset HARD"), regrun.NotDone, "reset HARD: the target"),
    (
        {"reset": "none"},
        lambda s: s.reset("SOFT"),
        regrun.NotDone,
        "reset SOFT: the target answered `none`",
    ),
]


@pytest.mark.parametrize("odd, do, cause, text", ANSWERS, ids=[str(it[0]) for it in ANSWERS])
def test_what_a_target_can_answer(link, odd, do, cause, text):
    target = Words(**odd)
    with pytest.raises(cause, match=text):
        with regrun.Session(CHIP, target, program=link) as s:
            do(s)
    assert target.closed == 1
    if cause in (regrun.BusError, regrun.TargetError):
        # A reset is no item of the bus: the log says that it wasn't done.
        told = "# not done: `reset HARD`" if "reset" in odd else "bus error at word 0"
        assert told in s.log


def test_a_note_stands_before_its_event_in_a_sequence(link):
    with regrun.Session(CHIP, Words(reset="none"), program=link) as s:
        s.read("ctrl")
        run = s.seq("hw-reset")
        assert (run.line, [it.line for it in run.events]) == (4, [6, 7])
        assert [(it.line, it.kind) for it in s.others] == [(5, "note")]
        assert s.log.splitlines()[4].startswith("# not done: `reset HARD`")


def test_a_target_that_cannot_start_is_closed(link):
    class Broken(Words):
        def start(self):
            raise regrun.TargetError("no such board")

    target = Broken()
    with pytest.raises(regrun.TargetError, match="no such board"):
        regrun.Session(CHIP, target, program=link)
    assert target.closed == 1


class Interrupted(Words):
    """A target that is interrupted while it owes the third answer."""

    def __init__(self):
        super().__init__()
        self.asked = 0

    def answer(self, request):
        self.asked += 1
        if self.asked == 3:
            raise KeyboardInterrupt
        return super().answer(request)


@pytest.mark.parametrize("caught", [False, True], ids=["leaves the session", "is caught"])
def test_an_interrupt_while_an_answer_is_owed(link, caught):
    """The program waits for an answer, and gets none: the session ends at once, and not after a minute."""
    target, start = Interrupted(), 0.0
    with pytest.raises(regrun.ProgramEnded if caught else KeyboardInterrupt):
        with regrun.Session(CHIP, target, program=link) as s:
            try:
                s.seq("bit-bash")
            except KeyboardInterrupt:
                start = time.monotonic()
                if not caught:
                    raise
            with pytest.raises(regrun.ProgramEnded, match="an operation was interrupted"):
                s.read("ctrl")
    assert time.monotonic() - start < 30
    assert (target.asked, target.closed) == (3, 1)
    assert s._program._process is None


def test_nothing_has_a_backdoor(link):
    target = Words()
    with regrun.Session(CHIP, target, program=link) as s:
        with pytest.raises(regrun.Refused, match="refused no backdoor"):
            s.peek("ctrl")
        assert s.read("ctrl").value == 0
        assert target.words == {}


def test_a_description_is_refused_before_anything_is_asked(link):
    target = Words(r_bus=AssertionError("asked"))
    flaw = '[[flaw]]\nkind = "error-nth"\nnth = 1\n'
    with pytest.raises(regrun.DescriptionRefused, match="flaw 1 .*: no flaws over a link"):
        regrun.Session(CHIP + flaw, target, program=link)
    assert target.closed == 1
