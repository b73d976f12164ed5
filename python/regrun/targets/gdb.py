"""The memory behind a debug probe, by the GDB remote protocol: OpenOCD, J-Link, pyOCD and QEMU have such servers."""

from __future__ import annotations

import os
import socket
import time
from typing import Mapping, Optional, Tuple, Union

from regrun.targets.base import (
    Access,
    MemoryTarget,
    Ports,
    TargetAnswerError,
    TargetEnded,
    TargetError,
    TargetStartError,
    TargetTimeout,
    Verify,
)
from regrun.targets.process import Child, Words, words_of

_TRIES = 3


class GdbServer(MemoryTarget):
    """Speaks to the server at `address`: `host:port`, or the path of a Unix socket.

    A load is the packet `m`, a store is `M`, each of one access's address and size, which a server makes as one access
    where the address is a multiple of the size. `order` is the byte order of the target, `little` or `big`. An answer
    `E..` is a bus error, and a note.

    QEMU's server drops stores to devices in silence until it is told `Qqemu.PhyMemMode:1`, which `physical` sends;
    other servers answer that they don't know it. With `verify` a write is read back (see MemoryTarget).

    `resets` has a command of the server's monitor for each kind of reset, such as `{"HARD": "reset halt"}` for OpenOCD;
    other kinds and `hw` are answered by `none`.

    With `command` the server is started, and ended with the session. Most servers halt the processor while a debugger
    is there; with `detach` it is let go at the end. `timeout` is in seconds, for each answer; `start_timeout` is for
    the server to take the connection.
    """

    def __init__(
        self,
        address: str,
        *,
        command: Optional[Words] = None,
        ports: Optional[Ports] = None,
        verify: Verify = False,
        order: str = "little",
        physical: bool = True,
        resets: Optional[Mapping[str, str]] = None,
        detach: bool = True,
        timeout: float = 5.0,
        start_timeout: float = 60.0,
    ) -> None:
        super().__init__(ports, verify)
        if order not in ("little", "big"):
            raise ValueError('order is "little" or "big"')
        self.timeout = timeout
        self._start_timeout = start_timeout
        self._address = str(address)
        self._where = _where(self._address)
        self._command = words_of(command) if command else None
        self.order = order
        self._physical = physical
        self._resets = dict(resets or {})
        self._detach = detach
        self._child: Optional[Child] = None
        self._peer: Optional[socket.socket] = None
        self._bytes = b""

    def start(self) -> None:
        self._broken, self._bytes = None, b""
        if self._command:
            self._child = Child(self._command, self.note)
        try:
            self._peer = self._connect(time.monotonic() + self._start_timeout)
            self._ask("Hg0", "Hg0")  # gdbserver has no memory before a thread is chosen
            if self._physical:
                self._ask("Qqemu.PhyMemMode:1", "Qqemu.PhyMemMode:1")
        except TargetError as error:
            self._broken = error
            self.close()
            raise TargetStartError(str(error)) from error

    def load(self, access: Access) -> Optional[int]:
        packet = f"m{access.address:x},{access.size:x}"
        said = self._ask(packet, access.request.text)
        if said.startswith("E"):
            self.note(f"`{said}` to `{packet}`: `{access.request.text}`")
            return None
        try:
            found = bytes.fromhex(said)
        except ValueError:
            found = b""
        if len(found) != access.size:
            raise TargetAnswerError(self._odd(packet, said), access.request.text)
        return sum(byte << 8 * at for at, byte in enumerate(self._ordered(found)))

    def store(self, access: Access) -> bool:
        word = bytes(access.value >> 8 * at & 0xFF for at in range(access.size))
        packet = f"M{access.address:x},{access.size:x}:{self._ordered(word).hex()}"
        said = self._ask(packet, access.request.text)
        if said.startswith("E"):
            self.note(f"`{said}` to `{packet}`: `{access.request.text}`")
            return False
        if said != "OK":
            raise TargetAnswerError(self._odd(packet, said), access.request.text)
        return True

    def reset(self, kind: str) -> bool:
        if kind not in self._resets:
            return False
        said = self.monitor(self._resets[kind])
        if said != "OK":
            self.note(f"the reset {kind} was answered by `{said}`")
        return said == "OK"

    def monitor(self, command: str) -> str:
        """The server's answer to a command of its monitor: `OK`, or what else it says; what it prints is a note."""
        return self._ask(f"qRcmd,{command.encode().hex()}", f"monitor {command}", printing=True)

    def close(self) -> None:
        if self._peer:
            try:
                if self._detach and not self._broken:
                    self._ask("D", "detach")
            except TargetError as error:
                self.note(str(error))
            self._peer.close()
            self._peer = None
        if self._child:
            self._child.close(polite=0.0)
            self._child = None

    def _ordered(self, word: bytes) -> bytes:
        """The bytes of a word from its lowest, as they stand in memory, or the other way round."""
        return word if self.order == "little" else word[::-1]

    def _odd(self, packet: str, said: str) -> str:
        return f"the GDB server answered `{packet}` by " + (
            f"`{said}`" if said else "nothing: it doesn't know it"
        )

    def _connect(self, until: float) -> socket.socket:
        """Connects; tries again while a server that was started here comes up."""
        while True:
            try:
                return self._connected(max(0.01, until - time.monotonic()))
            except OSError as error:
                path = self._where == self._address and os.sep not in self._address
                what = f"{self._address}, a socket since it has no port" if path else self._address
                why = f"no GDB server at {what}: {error.strerror or error}"
                if self._child is None:
                    raise TargetStartError(why) from error
            self._child.drain(self.note)
            if self._child.ended() or time.monotonic() >= until:
                raise TargetStartError(f"{why}; {self._child.told()}")
            time.sleep(0.02)

    def _connected(self, seconds: float) -> socket.socket:
        """A connection to the server. Raises OSError."""
        if isinstance(self._where, tuple):
            peer = socket.create_connection(self._where, seconds)
            peer.setsockopt(socket.IPPROTO_TCP, socket.TCP_NODELAY, 1)
            return peer
        peer = socket.socket(socket.AF_UNIX, socket.SOCK_STREAM)
        try:
            peer.settimeout(seconds)
            peer.connect(self._where)
        except OSError:
            peer.close()
            raise
        return peer

    def _ask(self, data: str, request: str, printing: bool = False) -> str:
        """Sends a packet and takes its answer; while `printing`, packets of text come before it."""
        until = time.monotonic() + self.timeout
        self._send(data, until, request)
        while True:
            said = self._packet(until, request)
            if not printing or not said.startswith("O") or said == "OK":
                return said
            self.note(bytes.fromhex(said[1:]).decode(errors="replace").rstrip())

    def _send(self, data: str, until: float, request: str) -> None:
        """Sends a packet, again where the server didn't take it whole."""
        if self._child:
            self._child.drain(self.note)
        if self._peer is None:
            raise TargetStartError("the GDB server wasn't started", request)
        for _ in range(_TRIES):
            self._peer.settimeout(max(0.01, until - time.monotonic()))
            try:
                self._peer.sendall(f"${data}#{sum(data.encode()) % 256:02x}".encode())
            except socket.timeout as error:
                who = f"the GDB server at {self._address}"
                raise TargetTimeout(who, self.timeout, request) from error
            except OSError as error:
                raise TargetEnded(f"the GDB server has gone: {error.strerror}", request) from error
            passed = self._through(b"+-$", until, request)
            if passed.endswith(b"$"):
                self._bytes = b"$" + self._bytes
            if not passed.endswith(b"-"):
                return
        raise TargetAnswerError(f"the GDB server refused `{data}` {_TRIES} times", request)

    def _packet(self, until: float, request: str) -> str:
        """The next packet of the server, acknowledged; one with a wrong sum is asked for again."""
        assert self._peer
        for _ in range(_TRIES):
            self._through(b"$", until, request)
            data = self._through(b"#", until, request)[:-1]
            told = self._byte(until, request) + self._byte(until, request)
            good = told.lower() == b"%02x" % (sum(data) % 256)
            self._peer.sendall(b"+" if good else b"-")
            if good:
                return _plain(data)
        raise TargetAnswerError(f"the GDB server sent a wrong sum {_TRIES} times", request)

    def _through(self, ends: bytes, until: float, request: str) -> bytes:
        """The next bytes up to and with one of these."""
        passed = self._byte(until, request)
        while passed[-1:] not in ends:
            passed += self._byte(until, request)
        return passed

    def _byte(self, until: float, request: str) -> bytes:
        """The next byte. Raises TargetTimeout and TargetEnded."""
        assert self._peer
        while not self._bytes:
            left = until - time.monotonic()
            if left <= 0:
                raise TargetTimeout(f"the GDB server at {self._address}", self.timeout, request)
            self._peer.settimeout(left)
            try:
                self._bytes = self._peer.recv(65536)
            except socket.timeout:
                continue
            except OSError as error:
                raise TargetEnded(f"the GDB server has gone: {error.strerror}", request) from error
            if not self._bytes:
                raise TargetEnded(
                    "the GDB server closed the connection before it answered", request
                )
        first, self._bytes = self._bytes[:1], self._bytes[1:]
        return first


def _where(address: str) -> Union[str, Tuple[str, int]]:
    """A path, or a host and a port."""
    host, colon, port = address.rpartition(":")
    if os.sep in address or not colon:
        return address
    if not port.isdigit():
        raise ValueError(f"{address} is neither host:port nor a path")
    return (host.strip("[]") or "localhost", int(port))


def _plain(data: bytes) -> str:
    """A packet's text, without escapes and runs."""
    plain = bytearray()
    at = 0
    while at < len(data):
        byte = data[at]
        follows = data[at + 1] if at + 1 < len(data) else None
        if byte == 0x7D and follows is not None:
            plain.append(follows ^ 0x20)
            at += 2
        elif byte == 0x2A and follows is not None and plain:
            plain.extend(plain[-1:] * (follows - 29))
            at += 2
        else:
            plain.append(byte)
            at += 1
    return plain.decode("latin-1")
