"""A bench in a simulator, over pipes: what examples/rtl/bench.v and bench.vhd speak, in Icarus, GHDL, Verilator or another."""

from __future__ import annotations

import os
import re
import shlex
import shutil
import subprocess
import time
from typing import List, Mapping, Optional, Sequence

from regrun.targets.base import Target, TargetAnswerError, TargetStartError
from regrun.targets.process import Child, Words, words_of

_WORD = re.compile(r"(?:0[xX][0-9a-fA-F]+|[0-9]+)", re.ASCII)
_UNKNOWN = re.compile(r"[0-9a-f]*[xz][0-9a-fxz]*", re.ASCII | re.IGNORECASE)


class Simulator(Target):
    """Runs `command`, whose standard input takes the requests and whose standard output gives the answers.

    A line that doesn't begin with the word `ok`, `error` or `none` is chatter: it is kept in `notes`. So is each line of
    standard error. An answer to a read with x or z digits is an item that failed: `error`, and a note.

    `timeout` is the seconds for each answer, `start_timeout` those for the first one, in which the simulator starts.
    After a request without an answer nothing more is sent, since a late answer would be taken for that of another.
    """

    def __init__(
        self,
        command: Words,
        *,
        cwd: Optional[str] = None,
        env: Optional[Mapping[str, str]] = None,
        timeout: float = 5.0,
        start_timeout: float = 60.0,
    ) -> None:
        self._command = words_of(command)
        self._cwd = cwd
        self._env = env
        self._child: Optional[Child] = None
        self._first = True
        self._start_timeout = start_timeout
        self.timeout = timeout

    def start(self) -> None:
        self._first, self._broken = True, None
        self._child = Child(self._command, self.note, self._cwd, self._env)

    def answer(self, request: str) -> str:
        return self._talk(self._ask, request)

    def _ask(self, request: str) -> str:
        child = self._child
        if child is None:
            raise TargetStartError("the simulator wasn't started", request)
        seconds = max(self.timeout, self._start_timeout) if self._first else self.timeout
        until = time.monotonic() + seconds
        child.send(request, request)
        line = child.line(until, seconds, request)
        while line.split(None, 1)[:1] not in (["ok"], ["error"], ["none"]):
            if line.strip():
                self.note(line)
            line = child.line(until, seconds, request)
        self._first = False
        return self._judged(line, request)

    def _judged(self, line: str, request: str) -> str:
        """An answer as the link takes it. Raises TargetAnswerError where it is none of this request."""
        words = line.split()
        bare = words[0] != "ok" or not request.startswith("r ")
        if len(words) == (1 if bare else 2):
            if bare or _WORD.fullmatch(words[1]):
                return " ".join(words)
            digits = words[1][2:] if words[1][:2] in ("0x", "0X") else words[1]
            if _UNKNOWN.fullmatch(digits):
                self.note(f"an unknown value: `{line.strip()}` to `{request}`")
                return "error"
        raise TargetAnswerError(f"the simulator said `{line.strip()}`, which is no answer", request)

    def close(self) -> None:
        if self._child:
            self._child.close()
            self._child = None


def build_icarus(folder: str, sources: Words, defines: Sequence[str] = ()) -> List[str]:
    """Makes a bench of Verilog by Icarus in a folder; the command that runs it. Raises TargetStartError."""
    folder = os.path.abspath(folder)
    out = os.path.join(folder, "bench.vvp")
    macros = (f"-D{name}" for name in defines)
    _compile(["iverilog", "-g2005", "-o", out, *macros, *_absolute(sources)], folder)
    return ["vvp", "-n", out]


def build_verilator(
    folder: str, sources: Words, defines: Sequence[str] = (), top: str = "bench"
) -> List[str]:
    """Makes a bench of Verilog by Verilator 5 in a folder; the command that runs it. Raises TargetStartError."""
    folder = os.path.abspath(folder)
    words = [
        "verilator",
        "--binary",
        "-j",
        "0",
        "-Wno-fatal",
        "--top-module",
        top,
        "-Mdir",
        folder,
        "-o",
        "bench",
    ]
    _compile([*words, *(f"-D{name}" for name in defines), *_absolute(sources)], folder)
    return [os.path.join(folder, "bench")]


def build_ghdl(
    folder: str,
    sources: Words,
    generics: Optional[Mapping[str, str]] = None,
    top: str = "bench",
) -> List[str]:
    """Makes a bench of VHDL by GHDL in a folder; the command that runs it. Raises TargetStartError."""
    folder = os.path.abspath(folder)
    options = ["--std=08", f"--workdir={folder}"]
    _compile(["ghdl", "-a", *options, *_absolute(sources)], folder)
    _compile(["ghdl", "-e", *options, top], folder)
    return [
        "ghdl",
        "-r",
        *options,
        top,
        *(f"-g{name}={value}" for name, value in (generics or {}).items()),
    ]


def _absolute(sources: Words) -> List[str]:
    """The paths of sources, or of one, from where the caller is: a compiler runs in the folder that it writes to."""
    return [os.path.abspath(it) for it in ([sources] if isinstance(sources, str) else sources)]


def _compile(command: List[str], folder: str) -> None:
    """Runs a compiler in the folder that it writes to."""
    if shutil.which(command[0]) is None:
        raise TargetStartError(f"{command[0]} isn't installed")
    ran = subprocess.run(
        command,
        cwd=folder,
        stdin=subprocess.DEVNULL,
        stdout=subprocess.PIPE,
        stderr=subprocess.STDOUT,
        check=False,
    )
    if ran.returncode:
        said = ran.stdout.decode(errors="replace")
        raise TargetStartError(
            f"{shlex.join(command)} ended with the status {ran.returncode}:\n{said}"
        )
