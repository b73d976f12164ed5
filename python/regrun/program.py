"""The program behind a session: where it is found, how it is started, and how a line of the script gets its answer.

A program writes out the log of a line before it reads the next one, and that is all that is needed to know where an
answer ends:

1. A sequence ends by its line of counts, a refused operation and a bus error by what their line says: at word K there are
   K+1 items.
2. How many items a successful access has depends on the description alone, so it is the same each time. The first time
   that an access is made, a blank line is sent behind it. Once the program has taken that from the pipe, all that it has
   to say of the access stands in the other pipe.
3. From then on as many lines are read as it had.
"""

from __future__ import annotations

import fcntl
import functools
import operator
import os
import re
import select
import shutil
import signal
import struct
import subprocess
import tempfile
import termios
import time
from pathlib import Path
from typing import IO, Any, List, Optional, Sequence, Tuple

from .errors import STATUSES, LogError, ProgramEnded, ProgramNotFound, RegrunError, TargetError

# In a traceback of pytest a failure of a session stands at the test's own line.
__tracebackhide__ = operator.methodcaller("errisinstance", RegrunError)

# What the link takes for an answer to a read, and to any other request: at another it breaks, or waits for one more line.
_ANSWER_TO_READ = re.compile(r"ok (?:0[xX][0-9a-fA-FxXzZ]+|[0-9]+|[xXzZ]+)|error|none")
_ANSWER = re.compile(r"ok|error|none")

CHECKOUT = Path(__file__).resolve().parents[2]
MOST_SCRIPT_LINES = 1_000_000


def find(name: str = "regrun", given: Optional[str] = None) -> List[str]:
    """The command that runs a program, `regrun` or `regrun-link` and so on.

    The first of: `given`; the environment variable of the name (REGRUN, REGRUN_LINK, ..); the launcher of the checkout that
    this package stands in; PATH. In place of a launcher it is the program that the launcher runs. Raises ProgramNotFound.
    """
    variable = name.upper().replace("-", "_")
    asked = given or os.environ.get(variable)
    if asked:
        found = shutil.which(asked)
        if found is None:
            why = "it can't be executed" if os.path.isfile(asked) else "no such program"
            raise ProgramNotFound(f"{'program' if given else variable}: {why}: {asked}")
        return [_behind(os.path.abspath(found))]
    launcher = CHECKOUT / name
    if os.access(launcher, os.X_OK) and (CHECKOUT / "crates.txt").exists():
        return [_behind(str(launcher))]
    found = shutil.which(name)
    if found is None:
        raise ProgramNotFound(
            f"{name} isn't found: set {variable}, or put it on PATH (there is no launcher in {CHECKOUT})"
        )
    return [found]


@functools.lru_cache(maxsize=None)
def _behind(path: str) -> str:
    """The program that a launcher of a checkout runs, asked once; any other path is a program itself.

    The launcher may compile it first, which takes a minute and is told on standard error. Raises ProgramNotFound.
    """
    if not os.path.exists(os.path.join(os.path.dirname(os.path.realpath(path)), "crates.txt")):
        return path
    asked = subprocess.run(
        [path, "--program"], stdin=subprocess.DEVNULL, stdout=subprocess.PIPE, check=False
    )
    program = asked.stdout.decode("utf-8", "replace").strip()
    if asked.returncode or not program:
        told = STATUSES.get(asked.returncode, f"status {asked.returncode}")
        raise ProgramNotFound(f"{path} has no program: {told}")
    return program


class KeptLog:
    """The log as the program wrote it, in memory or in a file."""

    def __init__(self, path: "Optional[os.PathLike[str]]" = None) -> None:
        self.path = Path(path) if path is not None else None
        self._parts: List[bytes] = []
        self._file: Optional[int] = None
        if self.path is not None:
            try:
                self._file = os.open(self.path, os.O_RDWR | os.O_CREAT | os.O_TRUNC, 0o666)
            except OSError as error:
                raise LogError(
                    error.errno, f"the log can't be written: {error.strerror}", str(self.path)
                ) from error

    def add(self, part: bytes) -> None:
        """Keeps what was written. Raises LogError where it can't be kept."""
        if self._file is None:
            self._parts.append(part)
            return
        try:
            while part:
                part = part[os.write(self._file, part) :]
        except OSError as error:
            raise LogError(
                error.errno, f"the log can't be written: {error.strerror}", str(self.path)
            ) from error

    def text(self) -> str:
        """All that was kept."""
        if self.path is not None:
            return self.path.read_bytes().decode("utf-8", "replace")
        self._parts = [b"".join(self._parts)]
        return self._parts[0].decode("utf-8", "replace")

    def close(self) -> None:
        """Closes the file."""
        if self._file is not None:
            os.close(self._file)
            self._file = None


class Program:
    """A running program, and the pipes to it.

    `silence` is the time in seconds that it may write nothing at all while an answer is awaited; None is no limit.
    """

    def __init__(self, kept: KeptLog, silence: Optional[float] = 60.0) -> None:
        self.kept = kept
        self.silence = silence
        self.status: Optional[int] = None
        self.target_error: Optional[BaseException] = None
        self.lines_sent = 0
        self._process: "Optional[subprocess.Popen[bytes]]" = None
        self._said: Optional[IO[bytes]] = None
        self._last_words = ""
        self._script = self._log = -1
        self._buffer = b""
        self._ended = False
        self._poll = select.poll()
        self._asking = False
        self.exchanges = 0
        self.last_exchange: Tuple[str, str] = ("", "")
        self._target: Any = None
        self._requests = self._answers = -1
        self._request_part = b""

    # Starting and ending.

    def start(self, command: Sequence[str]) -> None:
        """Starts a program that reads its session from standard input and writes the log to standard output."""
        self._spawn([*command, "run"], stdin=subprocess.PIPE, stdout=subprocess.PIPE)
        process = self._process
        assert process is not None and process.stdin is not None and process.stdout is not None
        self._script, self._log = process.stdin.fileno(), process.stdout.fileno()
        self._poll.register(self._log, select.POLLIN)

    def start_linked(self, command: Sequence[str], target: Any) -> None:
        """Starts a program that reads session and log by name and asks a target over its standard streams."""
        session_read, self._script = os.pipe()
        self._log, log_write = os.pipe()
        try:
            self._target = target
            target.start()
            words = [*command, f"/dev/fd/{session_read}", f"/dev/fd/{log_write}"]
            pipes = {"stdin": subprocess.PIPE, "stdout": subprocess.PIPE}
            self._spawn(words, pass_fds=(session_read, log_write), **pipes)
        finally:
            os.close(session_read)
            os.close(log_write)
        process = self._process
        assert process is not None and process.stdin is not None and process.stdout is not None
        self._answers, self._requests = process.stdin.fileno(), process.stdout.fileno()
        self._poll.register(self._log, select.POLLIN)
        self._poll.register(self._requests, select.POLLIN)

    def _spawn(self, words: Sequence[str], **pipes: Any) -> None:
        self._said = tempfile.TemporaryFile()
        try:
            self._process = subprocess.Popen(words, bufsize=0, stderr=self._said, **pipes)
        except OSError as error:
            raise ProgramNotFound(f"{words[0]} can't be run: {error.strerror}") from error

    def hurry(self) -> None:
        """Has `close` wait no longer than 5 seconds for a program that is stuck."""
        self.silence = min(5.0, self.silence or 5.0)

    @property
    def interrupted(self) -> bool:
        """Whether a line was sent, and an exception came before the whole of its answer."""
        return self._asking

    def close(self) -> Optional[int]:
        """Ends the script, takes what is left of the log, and waits for the program: its exit status.

        Nothing is left behind. A program that doesn't end by itself is killed, and ProgramEnded is raised. Where a line was
        interrupted the target isn't asked any more, and the program is given one second.
        """
        process, self._process = self._process, None
        if process is None:
            self._release(None)
            return self.status
        try:
            if self._asking:
                self.silence = 1.0
                self._close_answers(process)
            self._close_script(process)
            limit = time.monotonic() + (self.silence or 60.0)
            while not self._ended and time.monotonic() < limit:
                self._wait(max(0.0, limit - time.monotonic()))
            self.status = process.wait(max(0.1, limit - time.monotonic()))
        except subprocess.TimeoutExpired:
            raise ProgramEnded(
                "the program didn't end where its script ended", None, self.said()
            ) from None
        finally:
            if process.poll() is None:
                process.kill()
            self.status = process.wait()
            self._release(process)
        return self.status

    def _close_script(self, process: "subprocess.Popen[bytes]") -> None:
        if self._target is None and process.stdin is not None:
            process.stdin.close()
        else:
            os.close(self._script)
        self._script = -1

    def _close_answers(self, process: "subprocess.Popen[bytes]") -> None:
        """Breaks the link: what the program still asks for gets no answer, and each further item fails."""
        if self._target is not None and process.stdin is not None:
            process.stdin.close()
            self._answers = -1

    def _release(self, process: "Optional[subprocess.Popen[bytes]]") -> None:
        """Closes each pipe, and the target."""
        owned = self._target is not None or process is None
        for stream in (process.stdin, process.stdout) if process is not None else ():
            if stream is not None:
                stream.close()
        for end in (self._script, self._log) if owned else ():
            if end >= 0:
                os.close(end)
        self._script = self._log = -1
        if self._said is not None and not self._said.closed:
            self._last_words = self.said()
            self._said.close()
        self._close_target()

    def _close_target(self) -> None:
        target, self._target = self._target, None
        if target is not None:
            target.close()

    def said(self) -> str:
        """What the program wrote to standard error: its last 2,000 characters."""
        if self._said is None or self._said.closed:
            return self._last_words
        self._said.seek(0)
        return self._said.read().decode("utf-8", "replace").strip()[-2000:]

    @property
    def running(self) -> bool:
        """Whether lines can be sent."""
        return self._process is not None and not self._ended

    # Talking.

    def begin(self, head: bytes) -> List[str]:
        """Sends the description with its separator: the lines by which it is refused, or none where it is taken.

        The program has judged it once it asks for the script: so the blank line is sent when the description was taken.
        """
        return self._whole(head)

    def ask_all(self, line: str) -> List[str]:
        """Sends a script line that may have many events: the lines of its answer."""
        self.lines_sent += 1
        return self._whole(line.encode("ascii") + b"\n")

    def _whole(self, sent: bytes) -> List[str]:
        """Sends bytes, waits until all that the program has to say of them was read, and gives it by lines."""
        self._begin_answer()
        try:
            self._send(sent)
            self._until_taken()
            self._settle()
        except ProgramEnded:
            if not self._buffer.rpartition(b"\n")[0].rpartition(b"\n")[2].startswith(b"refused "):
                raise
        return self._end_answer(self._take_all())

    def _begin_answer(self) -> None:
        """From here to the end of the answer an exception leaves the session of no use. Raises ProgramEnded where it was so."""
        if self._process is None:
            raise ProgramEnded("the session is closed", self.status)
        if self._ended:
            raise self._cause()
        if self._asking:
            raise ProgramEnded(
                "an operation was interrupted, so what the log says next isn't known"
            )
        self._asking = True

    def _end_answer(self, lines: List[str]) -> List[str]:
        self._asking = False
        return lines

    def ask(self, line: str, known: Optional[int]) -> Tuple[List[str], bool]:
        """Sends a script line in its one spelling that has one event: the lines of its answer.

        `known` is the number of items where it was done, None where that isn't known. The second result tells whether
        that number can be learned from this answer.
        """
        sent = line.encode("ascii")
        self._begin_answer()
        self._send(sent + b"\n")
        self.lines_sent += 1
        while b"\n" not in self._buffer:
            self._fill()
        first = self._buffer[: self._buffer.index(b"\n")]
        want = items_told(first, known) if first.startswith(sent) else None
        if want is None:
            self._asking = False
            return self._whole(b""), True
        while self._buffer.count(b"\n") < want + 1:
            self._fill()
        if self._buffer.count(b"\n") == want + 1 and self._buffer.endswith(b"\n"):
            return self._end_answer(self._take_all()), False
        lines = self._buffer.split(b"\n", want + 1)
        self._buffer = lines.pop()
        return self._end_answer([it.decode("utf-8", "replace") for it in lines]), False

    def _take_all(self) -> List[str]:
        lines = self._buffer.decode("utf-8", "replace").split("\n")
        self._buffer = lines.pop().encode()
        return lines

    def _send(self, data: bytes) -> None:
        try:
            while data:
                data = data[os.write(self._script, data) :]
        except BrokenPipeError:
            while not self._ended and self._wait(self.silence):
                pass
            raise self._cause() from None

    def _until_taken(self) -> None:
        """Waits until all that was sent has been read by the program. Its log is read meanwhile."""
        turns, limit = 0, time.monotonic() + (self.silence or 1e9)
        while struct.unpack("i", fcntl.ioctl(self._script, termios.FIONREAD, b"\0\0\0\0"))[0]:
            turns += 1
            if self._wait(0 if turns < 100 else 0.001):
                limit = time.monotonic() + (self.silence or 1e9)
            elif time.monotonic() > limit:
                raise self._silent()
            if self._ended:
                raise self._cause()

    def _settle(self) -> None:
        """Sends a blank line, which gives no event, and waits until the program has taken it.

        It writes its log out before it reads on, so all that it wrote of the lines before then stands in the pipe.
        """
        if self._ended:
            return
        self._send(b"\n")
        self.lines_sent += 1
        self._until_taken()
        while self._wait(0):
            pass

    def _fill(self) -> None:
        """Waits until the program has written more. Raises ProgramEnded where it has ended, or is silent for too long."""
        while not self._wait(self.silence):
            raise self._cause() if self._ended else self._silent()

    def _wait(self, seconds: Optional[float]) -> bool:
        """Takes what is there of log and requests, or waits so long for it: whether anything came."""
        if self._ended:
            return False
        came = False
        limit = None if seconds is None else int(seconds * 1000)
        for end, _ in self._poll.poll(limit):
            if end == self._log:
                part = os.read(end, 1 << 15)
                if part:
                    self._buffer += part
                    self.kept.add(part)
                    came = True
                else:
                    self._ended = True
                    self._poll.unregister(end)
            else:
                came = self._serve() or came
        return came

    def _serve(self) -> bool:
        """Answers the requests of the link."""
        part = os.read(self._requests, 1 << 16)
        if not part:
            self._poll.unregister(self._requests)
            return False
        if self._answers < 0:
            return True
        *requests, self._request_part = (self._request_part + part).split(b"\n")
        for request in requests:
            asked = request.decode("ascii", "replace")
            answer = self._answer(asked)
            self.exchanges += 1
            self.last_exchange = (asked, answer)
            try:
                os.write(self._answers, answer.encode("utf-8") + b"\n")
            except BrokenPipeError:
                return False
        return True

    def _answer(self, request: str) -> str:
        """What the target answers: an error, where it can't, and the cause is kept."""
        try:
            answer = self._target.answer(request)
            known = _ANSWER_TO_READ if request.startswith("r ") else _ANSWER
            if isinstance(answer, str) and known.fullmatch(answer.strip()):
                return answer.strip()
            raise TargetError(f"the target answered {answer!r}, which is no answer", request)
        except TargetError as error:
            if request not in str(error):
                error.args = (f"{error}; the request was `{request}`", *error.args[1:])
            if self.target_error is None:
                self.target_error = error
        except (
            Exception
        ) as error:  # a fault of the target itself ends nothing here, and is raised behind the answer
            if self.target_error is None:
                self.target_error = error
        return "error" if request[:2] in ("w ", "r ") else "none"

    # Causes.

    def _silent(self) -> ProgramEnded:
        return ProgramEnded(
            f"the program has written nothing for {self.silence:g} s", None, self.said()
        )

    def _cause(self) -> ProgramEnded:
        """Why the program has ended."""
        if self._process is not None:
            try:
                self.status = self._process.wait(5.0)
            except subprocess.TimeoutExpired:
                return ProgramEnded("the program closed its log and goes on", None, self.said())
        status = self.status
        if status is not None and status < 0:
            try:
                name = signal.Signals(-status).name
            except ValueError:
                name = "unknown"
            return ProgramEnded(
                f"the program was ended by signal {-status} ({name})", status, self.said()
            )
        text = STATUSES.get(status if status is not None else -1, "")
        return ProgramEnded(
            f"the program ended with status {status}{f' ({text})' if text else ''}",
            status,
            self.said(),
        )


#: Commands that never have a bus item.
WITHOUT_ITEMS = frozenset(
    "set show hw peek poke back-read back-check back-write mem-peek mem-poke reset".split()
)


def items_told(first: bytes, known: Optional[int]) -> Optional[int]:
    """How many items stand behind an operation's line, by what it says; `known` where it was done, None if that isn't known."""
    _, _, result = first.partition(b": ")
    if first.startswith(b"refused ") or result.startswith(b"refused "):
        return 0
    if result.startswith(b"bus error at word "):
        return int(result.split()[4]) + 1
    if result.startswith(b"ok none"):
        return 0
    if result.startswith(b"ok"):
        return known
    return None


def mapped(description: str, given: Optional[str] = None) -> List[str]:
    """The lines that `regrun map` says of a description: its layout, or the refusal."""
    words = [*find("regrun", given), "map"]
    session = f"{description}\n---\n".encode("utf-8")
    done = subprocess.run(words, input=session, capture_output=True, check=False)
    lines = done.stdout.decode("utf-8", "replace").splitlines()
    if not lines:
        raise ProgramEnded(
            f"`{' '.join(words)}` ended with status {done.returncode}", done.returncode
        )
    return lines
