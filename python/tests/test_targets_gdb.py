"""A debug probe's memory: a server that the test plays, and QEMU's own."""

from __future__ import annotations

import shutil
import socket
import threading
from typing import Callable, Iterator, List

import pytest

from regrun.targets import (
    GdbServer,
    TargetAnswerError,
    TargetEnded,
    TargetError,
    TargetRefused,
    TargetStartError,
    TargetTimeout,
    TargetWriteError,
)

READ = "r bus 0x9000024 0x0 1111 #0"
QEMU = "qemu-system-arm -M virt -S -nic none -display none -serial null -monitor none -gdb".split()
needs_qemu = pytest.mark.skipif(
    shutil.which("qemu-system-arm") is None,
    reason="the Debian package qemu-system-arm is not installed",
)


def packet(text: str) -> bytes:
    return b"$%s#%02x" % (text.encode("latin-1"), sum(text.encode("latin-1")) % 256)


class Server:
    """A server on a free port of the loopback that takes one connection.

    It answers each packet by the bytes that `answers` makes of its text, and keeps the texts and the marks + and -.
    """

    def __init__(self, answers: Callable[[str], bytes]) -> None:
        self.heard: List[str] = []
        self.marks = ""
        self._answers = answers
        self._listener = socket.create_server(("127.0.0.1", 0))
        self._listener.settimeout(60)
        self.address = "127.0.0.1:%d" % self._listener.getsockname()[1]
        self._thread = threading.Thread(target=self._serve)
        self._thread.start()

    def _serve(self) -> None:
        with self._listener, self._listener.accept()[0] as peer:
            peer.settimeout(60)
            held = b""
            while got := peer.recv(4096):
                held += got
                while held[:1] in (b"+", b"-"):
                    self.marks, held = self.marks + held[:1].decode(), held[1:]
                if b"#" in held[:-2]:
                    end = held.index(b"#")
                    text, held = held[1:end].decode(), held[end + 3 :]
                    self.heard.append(text)
                    answer = self._answers(text)
                    if answer == b"hang up":
                        return
                    peer.sendall(answer)

    def join(self) -> None:
        self._thread.join(60)
        assert not self._thread.is_alive()


@pytest.fixture
def serve() -> Iterator[Callable[[Callable[[str], bytes]], Server]]:
    servers: List[Server] = []

    def make(answers: Callable[[str], bytes]) -> Server:
        servers.append(Server(answers))
        return servers[-1]

    yield make
    for server in servers:
        server.join()


def plain(memory: Callable[[str], bytes]) -> Callable[[str], bytes]:
    """The answers of a server that knows nothing but memory and `D`."""

    def answers(text: str) -> bytes:
        if text[0] in "mM":
            return memory(text)
        return b"+" + packet("OK" if text == "D" else "")

    return answers


@pytest.mark.parametrize(
    "order, request_line, sent, said, answer",
    [
        ("little", READ, "m9000024,4", "44332211", "ok 0x11223344"),
        ("big", READ, "m9000024,4", "11223344", "ok 0x11223344"),
        ("little", "r bus 0x10 0x0 0100 #0", "m12,1", "5a", "ok 0x5a0000"),
        (
            "little",
            "r bus 0x8 0x0 11111111 #0",
            "m8,8",
            "0100000000000080",
            "ok 0x8000000000000001",
        ),
        ("little", "w bus 0x9000024 0x11223344 1111 #0", "M9000024,4:44332211", "OK", "ok"),
        ("big", "w bus 0x9000024 0x11223344 1111 #0", "M9000024,4:11223344", "OK", "ok"),
        ("little", "w bus 0x10 0xaabbccdd 1100 #0", "M12,2:bbaa", "OK", "ok"),
        ("little", READ, "m9000024,4", "E14", "error"),
        ("little", "w bus 0x10 0x0 1111 #0", "M10,4:00000000", "E01", "error"),
    ],
)
def test_an_access_is_one_packet(
    serve: Callable[..., Server], order: str, request_line: str, sent: str, said: str, answer: str
) -> None:
    server = serve(plain(lambda text: b"+" + packet(said)))
    with GdbServer(server.address, order=order) as probe:
        assert probe.answer(request_line) == answer
        assert [probe.answer(line) for line in ("reset HARD", "hw a.b 0x1")] == ["none", "none"]
    server.join()
    assert server.heard == ["Hg0", "Qqemu.PhyMemMode:1", sent, "D"]
    assert server.marks == "++++"


def test_a_narrow_access_of_a_big_endian_target_is_refused(serve: Callable[..., Server]) -> None:
    server = serve(plain(lambda text: b"hang up"))
    with GdbServer(server.address, order="big") as probe:
        with pytest.raises(TargetRefused, match="0010 can't be made: the byte order is big"):
            probe.answer("r bus 0x10 0x0 0010 #0")
    server.join()
    assert server.heard == ["Hg0", "Qqemu.PhyMemMode:1", "D"]


@pytest.mark.parametrize(
    "said, answer",
    [
        (b"+" + packet('0*"11'), "ok 0x11000000"),
        (b"+noise" + packet("44332211"), "ok 0x11223344"),
        (packet("44332211"), "ok 0x11223344"),
    ],
)
def test_runs_and_noise(serve: Callable[..., Server], said: bytes, answer: str) -> None:
    """Behind `*` stands how often the digit before it is repeated, as a character of that number and 29."""
    server = serve(plain(lambda text: said))
    with GdbServer(server.address) as probe:
        assert probe.answer(READ) == answer


def test_a_wrong_sum_is_asked_for_again(serve: Callable[..., Server]) -> None:
    twice = iter([b"-", b"+$44332211#00" + packet("44332211")])
    server = serve(plain(lambda text: next(twice)))
    with GdbServer(server.address) as probe:
        assert probe.answer(READ) == "ok 0x11223344"
    server.join()
    assert server.heard == ["Hg0", "Qqemu.PhyMemMode:1", "m9000024,4", "m9000024,4", "D"]
    assert server.marks == "++-++"


@pytest.mark.parametrize(
    "memory, error, why",
    [
        (
            lambda text: b"+",
            TargetTimeout,
            r"the GDB server at 127.0.0.1:\d+ gave no answer within 0.2 s",
        ),
        (lambda text: b"", TargetTimeout, "gave no answer within 0.2 s"),
        (lambda text: b"+$4433", TargetTimeout, "gave no answer within 0.2 s"),
        (
            lambda text: b"hang up",
            TargetEnded,
            "the GDB server closed the connection before it answered",
        ),
        (lambda text: b"+" + packet("4433"), TargetAnswerError, "answered `m9000024,4` by `4433`"),
        (lambda text: b"+" + packet("xx"), TargetAnswerError, "answered `m9000024,4` by `xx`"),
        (lambda text: b"+" + packet(""), TargetAnswerError, "by nothing: it doesn't know it"),
        (lambda text: b"+" + b"$44332211#00" * 3, TargetAnswerError, "sent a wrong sum 3 times"),
        (lambda text: b"-", TargetAnswerError, "refused `m9000024,4` 3 times"),
    ],
)
def test_a_server_that_fails(
    serve: Callable[..., Server], memory: Callable[[str], bytes], error: type, why: str
) -> None:
    server = serve(plain(memory))
    with GdbServer(server.address) as probe:
        probe.timeout = 0.2 if error is TargetTimeout else 60.0
        with pytest.raises(error, match=why) as told:
            probe.answer(READ)
        assert told.value.request == READ
        with pytest.raises(TargetError, match="nothing is sent any more"):
            probe.answer(READ)


def test_a_monitor_that_prints(serve: Callable[..., Server]) -> None:
    def answers(text: str) -> bytes:
        if text == "qRcmd," + b"reset halt".hex():
            return b"+" + packet("O" + b"halted\n".hex()) + packet("OK")
        return b"+" + packet("E01" if text.startswith("qRcmd") else "OK")

    server = serve(answers)
    with GdbServer(server.address, resets={"HARD": "reset halt", "SOFT": "what"}) as probe:
        assert [probe.answer(f"reset {kind}") for kind in ("HARD", "SOFT", "COLD")] == [
            "ok",
            "none",
            "none",
        ]
        assert list(probe.notes) == ["halted", "the reset SOFT was answered by `E01`"]


def free_port() -> int:
    with socket.create_server(("127.0.0.1", 0)) as listener:
        return int(listener.getsockname()[1])


def test_no_server() -> None:
    address = f"127.0.0.1:{free_port()}"
    with pytest.raises(TargetStartError, match=f"no GDB server at {address}: Connection refused"):
        with GdbServer(address):
            pass
    with pytest.raises(TargetStartError, match="(?s)sh ended with the status 3.*no probe"):
        with GdbServer(address, command="sh -c 'echo no probe >&2; exit 3'"):
            pass
    with pytest.raises(TargetStartError, match="localhost, a socket since it has no port: No such"):
        with GdbServer("localhost"):
            pass
    silent = ["sh", "-c", "echo no board >&2; exec sleep 100"]
    with pytest.raises(TargetStartError, match="(?s)Connection refused; sh runs.*no board"):
        with GdbServer(address, command=silent, start_timeout=3.0):
            pass


@needs_qemu
def test_the_server_of_qemu(tmp_path: object) -> None:
    """UARTPCellID0 of the PL011 is 0x0d (ARM DDI 0183), and GPIODIR of the PL061 begins at 0 (ARM DDI 0190)."""
    where = f"{tmp_path}/gdb"
    command = [*QEMU, f"unix:{where},server=on,wait=off"]
    with GdbServer(where, command=command, resets={"HARD": "system_reset"}, verify=True) as probe:
        assert probe.answer("r bus 0x9000ff0 0x0 1111 #0") == "ok 0xd"
        assert probe.answer("w bus 0x9000024 0x1234 1111 #1") == "ok"
        assert probe.answer("w bus 0x9030400 0x55 1111 #2") == "ok"
        assert [probe.answer(READ), probe.answer("r bus 0x9030400 0x0 1111 #3")] == [
            "ok 0x1234",
            "ok 0x55",
        ]
        assert probe.answer("reset HARD") == "ok"
        assert probe.answer("r bus 0x9030400 0x0 1111 #4") == "ok 0x0"


@needs_qemu
def test_qemu_drops_stores_to_devices_without_its_physical_mode(tmp_path: object) -> None:
    where = f"{tmp_path}/gdb"
    command = [*QEMU, f"unix:{where},server=on,wait=off"]
    store = "w bus 0x9000024 0x1234 1111 #1"
    with GdbServer(
        where, command=command, physical=False, verify=lambda access: access.value != 1
    ) as probe:
        assert probe.answer("w bus 0x9000024 0x1 1111 #0") == "ok"
        assert probe.answer(READ) == "ok 0x0"
        with pytest.raises(
            TargetWriteError, match="0x1234 was written at 0x9000024, and 0x0 was read back"
        ):
            probe.answer(store)
