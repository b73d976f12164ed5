"""A simulator over pipes: the benches of examples/rtl, and peers that hang, chatter, die and answer wrongly."""

from __future__ import annotations

import os
import shutil
import signal
import subprocess
import sys
import textwrap
import time
from pathlib import Path
from typing import Callable, Iterator, List

import pytest

from regrun.targets import (
    Simulator,
    TargetAnswerError,
    TargetEnded,
    TargetError,
    TargetStartError,
    TargetTimeout,
    build_ghdl,
    build_icarus,
    build_verilator,
)

PACKAGE = Path(__file__).resolve().parents[1]
RTL = PACKAGE.parent / "examples" / "rtl"
VERILOG = [str(RTL / "bench.v"), str(RTL / "uart_regs.v")]
VHDL = [str(RTL / "uart_regs.vhd"), str(RTL / "bench.vhd")]
READ = "r apb 0x4 0x0 1111 #0"


def peer(script: str, **words: float) -> Simulator:
    """A simulator that is a script of the shell."""
    return Simulator(["sh", "-c", textwrap.dedent(script)], **words)  # type: ignore[arg-type]


def running(group: int) -> bool:
    """Whether a process of a group runs; one that ended and that nobody waited for doesn't."""
    for stat in Path("/proc").glob("[0-9]*/stat"):
        try:
            state, _, process_group = stat.read_text().rpartition(")")[2].split()[:3]
        except OSError:
            continue
        if int(process_group) == group and state not in "ZX":
            return True
    return False


def gone(group: int, seconds: float = 60.0) -> bool:
    """Whether no process of a group is left within so many seconds."""
    until = time.monotonic() + seconds
    while running(group) and time.monotonic() < until:
        time.sleep(0.01)
    return not running(group)


@pytest.mark.parametrize(
    "tool, build, sources",
    [
        ("iverilog", build_icarus, VERILOG),
        ("ghdl", build_ghdl, VHDL),
        ("verilator", build_verilator, VERILOG),
    ],
)
def test_the_bench_in_each_simulator(
    tool: str, build: Callable[[str, List[str]], List[str]], sources: List[str], tmp_path: Path
) -> None:
    if shutil.which(tool) is None:
        pytest.skip(f"the Debian package {tool} is not installed")
    from_here = [os.path.relpath(it) for it in sources]
    with Simulator(build(os.path.relpath(tmp_path), from_here)) as bench:
        asked = [
            ("reset HARD", "ok"),
            (READ, "ok 0x1b2"),
            ("w apb 0x4 0x1234 1111 #1", "ok"),
            ("w apb 0x4 0xff00 0010 #2", "ok"),
            ("r words 0x1 0x0 1111 #3", "ok 0xff34"),
            ("r apb 0x40 0x0 1111 #4", "error"),
            ("r nowhere 0x0 0x0 1111 #5", "none"),
            ("hw uart.errors.count 0x3", "ok"),
            ("hw uart.nothing 0x1", "none"),
            ("reset SOFT", "none"),
        ]
        answers = [bench.answer(request) for request, _ in asked]
        assert [_same(answer) for answer in answers] == [_same(want) for _, want in asked]
        assert any("uart_regs" in note for note in bench.notes)


def _same(answer: str) -> List[object]:
    """An answer whose word is a number."""
    return [int(word, 0) if word[0].isdigit() else word for word in answer.split()]


def test_a_bench_that_does_not_compile(tmp_path: Path) -> None:
    if shutil.which("iverilog") is None:
        pytest.skip("the Debian package iverilog is not installed")
    (tmp_path / "bad.v").write_text("module bench; nonsense endmodule\n")
    for sources in ([str(tmp_path / "bad.v")], str(tmp_path / "bad.v")):
        with pytest.raises(
            TargetStartError, match="(?s)iverilog .* ended with the status .*syntax error"
        ):
            build_icarus(str(tmp_path), sources)


def test_chatter_is_kept_and_is_no_answer() -> None:
    script = """
        echo 'VCD info: dumpfile x.vcd opened for output.'
        read -r line; echo 'okay then'; echo; echo '  ok   0x1B2  '
        read -r line; echo UVM_INFO >&2; echo 'errors: 0'; echo error
        read -r line; printf 'ok 7\\r\\n'
    """
    with peer(script) as bench:
        assert [bench.answer(READ) for _ in range(3)] == ["ok 0x1B2", "error", "ok 7"]
    assert sorted(bench.notes) == [
        "UVM_INFO",
        "VCD info: dumpfile x.vcd opened for output.",
        "errors: 0",
        "okay then",
    ]


@pytest.mark.parametrize("word", ["0x0000xxxx", "x", "0xZ", "zzzz", "0x1X"])
def test_an_unknown_value_is_a_failed_item(word: str) -> None:
    with peer(f"read -r line; echo ok {word}; read -r line; echo ok 0x1") as bench:
        assert [bench.answer(READ), bench.answer(READ)] == ["error", "ok 0x1"]
    assert list(bench.notes) == [f"an unknown value: `ok {word}` to `{READ}`"]


@pytest.mark.parametrize(
    "request_line, answer",
    [
        (READ, "ok"),
        (READ, "ok 0x1 0x2"),
        (READ, "ok 0x"),
        (READ, "ok yes"),
        (READ, "error 5"),
        ("reset HARD", "ok 0x1"),
        ("w apb 0x4 0x0 1111 #0", "ok 0x1"),
    ],
)
def test_a_wrong_answer_is_named_and_ends_the_talk(request_line: str, answer: str) -> None:
    with peer(f"read -r line; echo '{answer}'; cat") as bench:
        with pytest.raises(TargetAnswerError) as told:
            bench.answer(request_line)
        assert (
            str(told.value)
            == f"the simulator said `{answer}`, which is no answer; the request was `{request_line}`"
        )
        with pytest.raises(TargetError, match="nothing is sent any more: the simulator said"):
            bench.answer(READ)


@pytest.mark.parametrize(
    "script",
    [
        "cat > /dev/null",
        "trap '' TERM; while :; do sleep 0.1; done",
        "while :; do echo chatter; sleep 0.01; done",
        "trap '' TERM; sh -c 'trap \"\" TERM; sleep 100' & cat > /dev/null",
    ],
    ids=["hangs", "hangs and can't be terminated", "chatters", "has a child"],
)
def test_a_peer_without_an_answer(script: str) -> None:
    with peer(script, timeout=0.2, start_timeout=0.2) as bench:
        assert bench._child
        group = bench._child.process.pid
        with pytest.raises(TargetTimeout) as told:
            bench.answer(READ)
        assert (told.value.request, told.value.seconds) == (READ, 0.2)
        assert str(told.value) == f"sh gave no answer within 0.2 s; the request was `{READ}`"
        with pytest.raises(TargetError, match="nothing is sent any more: sh gave no answer"):
            bench.answer(READ)
    assert gone(group)


@pytest.mark.parametrize(
    "script, why",
    [
        (
            "read -r line; echo 'no licence' >&2; exit 3",
            "sh ended with the status 3 before it answered",
        ),
        ("kill -KILL $$", "sh was ended by SIGKILL before it answered"),
        ("exec > /dev/null; sleep 100", "sh closed its output before it answered"),
    ],
)
def test_a_peer_that_ends(script: str, why: str) -> None:
    with peer(script) as bench:
        with pytest.raises(TargetEnded, match=why) as told:
            bench.answer(READ)
        assert told.value.request == READ
        assert ("no licence" in str(told.value)) == ("licence" in script)


def test_a_simulator_that_is_killed_between_two_requests() -> None:
    with peer("while read -r line; do echo ok 0x1; done") as bench:
        assert bench.answer(READ) == "ok 0x1"
        assert bench._child
        os.kill(bench._child.process.pid, signal.SIGKILL)
        with pytest.raises(TargetEnded, match="SIGKILL"):
            bench.answer(READ)


def test_a_program_that_is_not_there() -> None:
    with pytest.raises(TargetStartError, match="no-such-simulator can't be started: No such file"):
        with Simulator("no-such-simulator +option"):
            pass
    with pytest.raises(TargetStartError, match="sh can't be started: No such file.*: /no/folder"):
        with Simulator("sh", cwd="/no/folder"):
            pass
    with pytest.raises(ValueError, match="a command without a word"):
        Simulator("")


def test_much_on_standard_error_blocks_nothing() -> None:
    script = (
        "while read -r line; do head -c 300000 /dev/zero | tr '\\0' x | fold >&2; echo ok 0x1; done"
    )
    with peer(script) as bench:
        assert [bench.answer(READ) for _ in range(3)] == ["ok 0x1"] * 3


@pytest.fixture
def user(tmp_path: Path) -> Iterator["subprocess.Popen[str]"]:
    """A program that has a simulator which never answers; its first line is the number of the simulator's group."""
    script = """
        import signal
        from regrun.targets import Simulator
        signal.signal(signal.SIGINT, signal.default_int_handler)
        with Simulator(["sh", "-c", "trap '' TERM INT; while :; do sleep 0.1; done"]) as bench:
            print(bench._child.process.pid, flush=True)
            bench.answer("reset HARD")
    """
    env = {**os.environ, "PYTHONPATH": str(PACKAGE)}
    words = [sys.executable, "-c", textwrap.dedent(script)]
    with subprocess.Popen(
        words, stdout=subprocess.PIPE, stderr=subprocess.DEVNULL, text=True, env=env
    ) as program:
        yield program
        program.kill()


@pytest.mark.parametrize("number", [signal.SIGINT, signal.SIGTERM, signal.SIGKILL])
def test_no_process_is_left_where_the_test_is_ended(
    user: "subprocess.Popen[str]", number: int
) -> None:
    assert user.stdout
    group = int(user.stdout.readline())
    user.send_signal(number)
    assert user.wait(60) == (-number)
    assert gone(group)


@pytest.mark.parametrize("name, defines", [("uart", []), ("uart-wrong", ["WRONG"])])
def test_a_session_over_the_bench_has_the_kept_log(
    name: str, defines: List[str], tmp_path: Path
) -> None:
    """The logs of examples/rtl were compared with the RTL by the command; a session of Python writes the same text."""
    session = pytest.importorskip("regrun.session")
    link = os.environ.get("REGRUN_LINK", str(PACKAGE.parent / "crates/regrun_link/out/regrun_link"))
    if shutil.which("iverilog") is None or not os.access(link, os.X_OK):
        pytest.skip("the Debian package iverilog is not installed, or regrun-link isn't built")
    script = (RTL / "uart.regrun").read_text().split("\n---\n")[1].splitlines()
    bench = Simulator(build_icarus(str(tmp_path), VERILOG, defines))
    with session.Session(RTL / "uart.regrun", bench, program=link, on_error="return") as running:
        for line in script:
            if line and not line.startswith("#"):
                running.do(line)
    assert running.log == (RTL / f"{name}.log").read_text()
