"""The devices of a virtual machine, by QEMU's qtest protocol: no firmware runs, and each request is one access of a device."""

from __future__ import annotations

import json
import re
import shlex
import socket
import time
from typing import Any, Dict, List, Optional, Tuple

from regrun.targets.base import (
    Access,
    MemoryTarget,
    Ports,
    TargetAnswerError,
    TargetEnded,
    TargetError,
    TargetStartError,
    TargetTimeout,
    Verify,
)
from regrun.targets.process import Child, Words, words_of

_LETTERS = {1: "b", 2: "w", 4: "l", 8: "q"}
_VALUE = re.compile(r"OK 0x([0-9a-fA-F]+)", re.ASCII)
_RANGE = re.compile(r"^  ([0-9a-f]{16})-([0-9a-f]{16}) \(", re.MULTILINE)


class Qemu(MemoryTarget):
    """Runs `binary -M machine` with its processor stopped, and makes each request an access of the system's memory.

    `cpu` and `args` are further words of the command (`args=["-device", ..]`), and `serial` says where the first serial
    line goes, such as `file:sent`. `ports` says where a port of the description stands (see MemoryTarget); without it an
    address of the session is one of the machine.

    qtest knows no bus error: a load where nothing is mapped reads 0. So with `holes="error"` each access is held to the
    map that the machine tells (`info mtree -f`) when it starts, and one outside is answered by `error`. With
    `holes="zero"` QEMU's own answer stands.

    `reset HARD` starts the machine again with `reset="restart"`: many devices keep their registers over QEMU's own
    reset, which is `reset="system_reset"`. Other kinds and `hw` are answered by `none`.

    `timeout` is in seconds, for each answer; `start_timeout` is for a start.
    """

    def __init__(
        self,
        machine: str,
        *,
        binary: str = "qemu-system-arm",
        cpu: Optional[str] = None,
        args: Words = (),
        serial: str = "null",
        ports: Optional[Ports] = None,
        verify: Verify = False,
        holes: str = "error",
        reset: str = "restart",
        timeout: float = 5.0,
        start_timeout: float = 60.0,
    ) -> None:
        super().__init__(ports, verify)
        if holes not in ("error", "zero") or reset not in ("restart", "system_reset"):
            raise ValueError('holes is "error" or "zero", and reset "restart" or "system_reset"')
        self.timeout = timeout
        self._start_timeout = start_timeout
        self._how = reset
        self._holes = holes
        self._ranges: List[Tuple[int, int]] = []
        self._child: Optional[Child] = None
        self._monitor: Optional[_Monitor] = None
        self._fresh = False
        self._command = [binary, "-M", machine, *(("-cpu", cpu) if cpu else ()), "-S"]
        self._command += ["-serial", serial, *shlex.split("-nic none -display none -monitor none")]
        self._command += shlex.split("-qtest stdio -qtest-log none -chardev socket,id=regrun,fd=FD")
        self._command += ["-mon", "chardev=regrun,mode=control"]
        self._command += words_of(args) if args else []

    def start(self) -> None:
        self._broken = None
        ours, theirs = socket.socketpair()
        command = [word.replace("fd=FD", f"fd={theirs.fileno()}") for word in self._command]
        try:
            self._monitor = _Monitor(ours)
            self._child = Child(command, self.note, pass_fds=[theirs.fileno()])
        finally:
            theirs.close()
        until = time.monotonic() + self._start_timeout
        try:
            self.order = self._ask("endianness", until).split()[-1]
            self._monitor.open(until)
            if self._holes == "error":
                self._ranges = self._map(until)
        except TargetError as error:
            self.close()
            raise TargetStartError(f"{shlex.join(command)}: {error}") from error
        self._fresh = True

    def load(self, access: Access) -> Optional[int]:
        if self._misses(access):
            return None
        words = f"read{_LETTERS[access.size]} {access.address:#x}"
        said = self._send(words, access.request.text)
        found = _VALUE.fullmatch(said)
        if found is None:
            raise TargetAnswerError(f"QEMU answered `{words}` by `{said}`", access.request.text)
        return int(found[1], 16) & (1 << 8 * access.size) - 1

    def store(self, access: Access) -> bool:
        if self._misses(access):
            return False
        words = f"write{_LETTERS[access.size]} {access.address:#x} {access.value:#x}"
        said = self._send(words, access.request.text)
        if said != "OK":
            raise TargetAnswerError(f"QEMU answered `{words}` by `{said}`", access.request.text)
        return True

    def reset(self, kind: str) -> bool:
        if kind != "HARD":
            return False
        if self._how == "system_reset":
            assert self._monitor
            self._monitor.reset(time.monotonic() + self.timeout)
        elif not self._fresh:
            self.close()
            self.start()
        return True

    def monitor(self, command: str) -> str:
        """What QEMU's own monitor says to a command, such as `info qtree`: to look at more than registers."""
        if self._monitor is None:
            raise TargetStartError("QEMU wasn't started")
        self._fresh = False
        return self._monitor.human(command, time.monotonic() + self.timeout)

    def close(self) -> None:
        if self._monitor:
            self._monitor.close()
            self._monitor = None
        if self._child:
            self._child.close(polite=0.0)
            self._child = None

    def _misses(self, access: Access) -> bool:
        """Whether the machine has nothing at an address of the access; then a note says so."""
        if self._holes == "zero" or self._has(access):
            return False
        self._ranges = self._map(time.monotonic() + self.timeout)
        if self._has(access):
            return False
        self.note(f"nothing is mapped at {access.address:#x}: `{access.request.text}`")
        return True

    def _has(self, access: Access) -> bool:
        first, last = access.address, access.address + access.size - 1
        return any(low <= first and last <= high for low, high in self._ranges)

    def _map(self, until: float) -> List[Tuple[int, int]]:
        """The ranges of the system's memory in which something is mapped."""
        assert self._monitor
        views = self._monitor.human("info mtree -f", until).replace("\r", "").split("FlatView #")
        system = [view for view in views if 'AS "memory"' in view]
        found = [
            (int(low, 16), int(high, 16)) for view in system for low, high in _RANGE.findall(view)
        ]
        if not found:
            raise TargetError('its monitor told no map of the memory; holes="zero" does without')
        return found

    def _send(self, words: str, request: str) -> str:
        self._fresh = False
        return self._ask(words, time.monotonic() + self.timeout, request)

    def _ask(self, words: str, until: float, request: Optional[str] = None) -> str:
        """Sends a command of qtest; its answer begins with OK, FAIL or ERR, and other lines are notes."""
        child, asked = self._child, request or words
        if child is None:
            raise TargetStartError("QEMU wasn't started", asked)
        child.send(words, asked)
        seconds = self.timeout if request else self._start_timeout
        line = child.line(until, seconds, asked)
        while line.split(" ", 1)[0] not in ("OK", "FAIL", "ERR"):
            self.note(line)
            line = child.line(until, seconds, asked)
        return line


class _Monitor:
    """QEMU's machine protocol (QMP) over a socket: one JSON object a line."""

    def __init__(self, peer: socket.socket) -> None:
        self._peer = peer
        self._bytes = b""
        self._events: List[str] = []

    def open(self, until: float) -> None:
        self._next(until, "the greeting")
        self._ask("qmp_capabilities", until)

    def human(self, command: str, until: float) -> str:
        """A command of the human monitor, and what it prints."""
        return str(self._ask("human-monitor-command", until, {"command-line": command})["return"])

    def reset(self, until: float) -> None:
        """Resets the machine, and waits until that is done."""
        self._events.clear()
        self._ask("system_reset", until)
        while "RESET" not in self._events:
            self._next(until, "system_reset")

    def close(self) -> None:
        self._peer.close()

    def _ask(
        self, name: str, until: float, words: Optional[Dict[str, str]] = None
    ) -> Dict[str, Any]:
        line = json.dumps({"execute": name, "arguments": words or {}}) + "\n"
        try:
            self._peer.sendall(line.encode())
        except OSError as error:
            raise TargetEnded(f"QEMU's monitor is closed: {error.strerror}", name) from error
        while True:
            said = self._next(until, name)
            if "error" in said:
                raise TargetAnswerError(f"QEMU's monitor: {said['error'].get('desc')}", name)
            if "return" in said:
                return said

    def _next(self, until: float, request: str) -> Dict[str, Any]:
        """The next object. Raises TargetTimeout and TargetEnded."""
        begun = time.monotonic()
        while b"\n" not in self._bytes:
            left = until - time.monotonic()
            if left <= 0:
                raise TargetTimeout("QEMU's monitor", until - begun, request)
            self._peer.settimeout(left)
            try:
                got = self._peer.recv(65536)
            except socket.timeout:
                continue
            except OSError as error:
                raise TargetEnded(f"QEMU's monitor is closed: {error.strerror}", request) from error
            if not got:
                raise TargetEnded("QEMU closed its monitor", request)
            self._bytes += got
        line, self._bytes = self._bytes.split(b"\n", 1)
        said: Dict[str, Any] = json.loads(line)
        if "event" in said:
            self._events.append(said["event"])
        return said
