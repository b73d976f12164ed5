"""A program that is spoken to line by line over pipes, with a time limit, and that never outlives its user."""

from __future__ import annotations

import os
import select
import shlex
import signal
import subprocess
import time
import weakref
from collections import deque
from typing import TYPE_CHECKING, Callable, Deque, List, Mapping, Optional, Sequence, Union

from regrun.targets.base import TargetEnded, TargetStartError, TargetTimeout, log

LONGEST = 1 << 20
"""A line of more bytes than this is cut into lines of so many."""

if TYPE_CHECKING:
    Process = subprocess.Popen[bytes]

# Waits for a line on standard input, and kills the process group $1 where the input ends before one.
_GUARD = 'read -r line || kill -s KILL -- "-$1"'


# Several words, or one text.
Words = Union[str, Sequence[str]]


def words_of(command: Words) -> List[str]:
    """The words of a command, which may also be one text. Raises ValueError where it has none."""
    words = shlex.split(command) if isinstance(command, str) else list(command)
    if not words:
        raise ValueError("a command without a word can't be started")
    return words


class Child:
    """A child process in a group of its own.

    `said` is called with each line of its standard error. The group is killed where the user's process ends in whatever
    way, SIGKILL too: a guard, a shell that reads a pipe of the user, sees the pipe's end.
    """

    def __init__(
        self,
        command: Sequence[str],
        said: Callable[[str], None],
        cwd: Optional[str] = None,
        env: Optional[Mapping[str, str]] = None,
        pass_fds: Sequence[int] = (),
    ) -> None:
        self.name = os.path.basename(command[0])
        self._said = said
        self._last: Deque[str] = deque(maxlen=10)
        self.process = _start(command, cwd, env, pass_fds)
        self._guard = _guard(self.process)
        self._finalizer = weakref.finalize(self, _end, self.process, self._guard, None, 0.0, 1.0)
        assert self.process.stdin and self.process.stdout and self.process.stderr
        self._in = self.process.stdin.fileno()
        self._out = self.process.stdout.fileno()
        self._err = self.process.stderr.fileno()
        self._bytes = {self._out: b"", self._err: b""}
        self._lines: Deque[str] = deque()
        self._poll = select.poll()
        for stream in self._bytes:
            os.set_blocking(stream, False)
            self._poll.register(stream, select.POLLIN)
        self._open = set(self._bytes)

    def send(self, line: str, request: str) -> None:
        """Writes a line. Raises TargetEnded where the program has gone."""
        try:
            os.write(self._in, line.encode() + b"\n")
        except BrokenPipeError:
            self._gone(request)

    def line(self, until: float, seconds: float, request: str) -> str:
        """The next line of standard output. Raises TargetTimeout past the moment `until`, TargetEnded at the end."""
        while not self._lines:
            if self._out not in self._open:
                self._gone(request)
            left = until - time.monotonic()
            if left <= 0:
                raise TargetTimeout(self.name, seconds, request)
            self._take(left)
        return self._lines.popleft()

    def drain(self, said: Callable[[str], None]) -> None:
        """Takes what the program wrote, without waiting: for one that isn't asked over its pipes."""
        self._take(0.0)
        while self._lines:
            said(self._lines.popleft())

    def ended(self) -> bool:
        """Whether the program ended."""
        return _status(self.process) is not None

    def told(self) -> str:
        """What became of the program, and its last lines of standard error."""
        self._take(0.1)
        how = _told(self.process) if self.ended() else "runs"
        return "\n  ".join([f"{self.name} {how}", *self._last])

    def close(self, polite: float = 1.0, grace: float = 1.0) -> None:
        """Ends the program: its input ends, after `polite` seconds it is terminated, after `grace` more it is killed."""
        if self._finalizer.detach():
            _end(self.process, self._guard, self._take, polite, grace)

    def _take(self, seconds: float) -> None:
        """Takes what the program wrote, after waiting so long for it."""
        for stream, _ in self._poll.poll(max(0.0, seconds) * 1000):
            try:
                self._add(stream, os.read(stream, 65536))
            except BlockingIOError:
                pass

    def _add(self, stream: int, got: bytes) -> None:
        """Keeps the lines of what was read; nothing is the stream's end."""
        if not got:
            self._poll.unregister(stream)
            self._open.discard(stream)
        *lines, rest = (self._bytes[stream] + got).split(b"\n")
        if rest and (not got or len(rest) > LONGEST):
            lines, rest = lines + [rest], b""
        self._bytes[stream] = rest
        for line in lines:
            self._keep(stream, line.decode(errors="replace").rstrip("\r"))

    def _keep(self, stream: int, line: str) -> None:
        if stream == self._out:
            self._lines.append(line)
        elif line:
            self._last.append(line)
            self._said(line)

    def _gone(self, request: str) -> None:
        """Says how the program ended."""
        until = time.monotonic() + 1.0
        while self._err in self._open and time.monotonic() < until:
            self._take(0.1)
        _reap(self.process, None, 1.0)
        raise TargetEnded(
            f"{self.name} {_told(self.process)} before it answered", request, self._last
        )


def _start(
    command: Sequence[str],
    cwd: Optional[str],
    env: Optional[Mapping[str, str]],
    pass_fds: Sequence[int],
) -> Process:
    """Starts a program with a pipe for each stream."""
    pipe = subprocess.PIPE
    try:
        return subprocess.Popen(
            list(command),
            stdin=pipe,
            stdout=pipe,
            stderr=pipe,
            bufsize=0,
            cwd=cwd,
            env=None if env is None else {**os.environ, **env},
            pass_fds=pass_fds,
            start_new_session=True,
        )
    except OSError as error:
        where = "" if error.filename in (None, command[0]) else f": {error.filename}"
        text = f"{command[0]} can't be started: {error.strerror}{where}"
        raise TargetStartError(text) from error


def _guard(process: Process) -> Process:
    """Starts the guard of a program; where it can't be, the program is ended."""
    words = ["/bin/sh", "-c", _GUARD, "guard", str(process.pid)]
    null = subprocess.DEVNULL
    try:
        return subprocess.Popen(
            words, stdin=subprocess.PIPE, stdout=null, stderr=null, start_new_session=True
        )
    except BaseException:
        _end(process, None, None, 0.0, 0.0)
        raise


def _status(process: Process) -> Optional[os.waitid_result]:
    """How it ended, or None; its status isn't taken, so that its number stays its own."""
    return os.waitid(os.P_PID, process.pid, os.WEXITED | os.WNOHANG | os.WNOWAIT)


def _told(process: Process) -> str:
    """How it ended, in words."""
    status = _status(process)
    if status is None:
        return "closed its output"
    if status.si_code == os.CLD_EXITED:
        return f"ended with the status {status.si_status}"
    return f"was ended by {signal.Signals(status.si_status).name}"


def _reap(process: Process, take: Optional[Callable[[float], None]], seconds: float) -> None:
    """Waits at most so many seconds for its end; `take` keeps its pipes empty meanwhile."""
    until = time.monotonic() + seconds
    pause = 0.001
    while _status(process) is None and time.monotonic() < until:
        if take:
            take(0.0)
        time.sleep(pause)
        pause = min(pause * 2, 0.02)


def _signal(process: Process, number: int) -> None:
    """Sends a signal to each process of the group."""
    try:
        os.killpg(process.pid, number)
    except (ProcessLookupError, PermissionError):
        pass


def _end(
    process: Process,
    guard: Optional[Process],
    take: Optional[Callable[[float], None]],
    polite: float,
    grace: float,
) -> None:
    """Ends a program with its group and its guard, also where this is interrupted."""
    assert process.stdin and process.stdout and process.stderr
    try:
        process.stdin.close()
        _reap(process, take, polite)
        if _status(process) is None:
            _signal(process, signal.SIGTERM)
            _reap(process, take, grace)
    finally:
        _signal(process, signal.SIGKILL)
        _reap(process, None, 5.0)
        if _status(process):
            process.wait()
        else:
            log.error("the process %d can't be killed", process.pid)
        process.stdout.close()
        process.stderr.close()
        if guard:
            guard.communicate(b"\n")
