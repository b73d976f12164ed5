"""The registers of a Linux board, by a mapping of /dev/mem or of a UIO file."""

from __future__ import annotations

import shlex
import sys
import time
from typing import List, Optional

from regrun.targets.base import (
    Access,
    MemoryTarget,
    Ports,
    TargetAnswerError,
    TargetEnded,
    TargetError,
    TargetStartError,
    Verify,
)
from regrun.targets.process import Child, Words, words_of

# What makes the accesses, in a process of its own: a bus error of the board ends that process alone. An assignment to a cast
# memoryview is one store of the item's size, and taking an item is one load. A value of ctypes isn't: its store reads first.
_WORKER = r"""
import mmap, os, sys
path, offset, size = sys.argv[1], int(sys.argv[2]), int(sys.argv[3])
page = offset % mmap.PAGESIZE
try:
    file = os.open(path, os.O_RDWR | getattr(os, "O_SYNC", 0))
    area = mmap.mmap(file, page + size, mmap.MAP_SHARED, mmap.PROT_READ | mmap.PROT_WRITE, offset=offset - page)
except (OSError, ValueError, OverflowError) as error:
    print(error, flush=True)
    sys.exit(0)
whole = memoryview(area)
views = {}
for width, letter in ((1, "B"), (2, "H"), (4, "I"), (8, "Q")):
    views[width] = whole[: len(whole) // width * width].cast("B").cast(letter)
print("ok", sys.byteorder, flush=True)
for line in sys.stdin:
    words = [int(word, 0) for word in line.split()]
    view, index = views[words[0]], (page + words[1]) // words[0]
    if len(words) == 3:
        view[index] = words[2]
        print("ok", flush=True)
    else:
        print(hex(view[index]), flush=True)
"""


class DevMem(MemoryTarget):
    """Maps `size` bytes from the address `base` on, by the file `path`, and makes each request one load or store.

    `offset` is where in the file the bytes are: the address itself for /dev/mem, and 0 for any other file; the offset of
    map N of a UIO file is N pages. `size` is in bytes. An access that isn't wholly within them is answered by `error`.

    The accesses are made by a process of its own. A bus error ends it (SIGBUS): the answer is `error`, and the next access
    starts another process. `remote` is a command before it, such as `["ssh", "root@board"]`, where `python` is the
    interpreter.

    There is no reset: `reset` and `hw` are answered by `none`. `timeout` is in seconds, for each answer.
    """

    def __init__(
        self,
        base: int,
        size: int = 4096,
        *,
        path: str = "/dev/mem",
        offset: Optional[int] = None,
        remote: Words = (),
        python: str = "",
        ports: Optional[Ports] = None,
        verify: Verify = False,
        timeout: float = 5.0,
        start_timeout: float = 60.0,
    ) -> None:
        super().__init__(ports, verify)
        self._base = base
        self._size = size
        self.timeout = timeout
        self._start_timeout = start_timeout
        self._path = path
        if offset is None:
            offset = base if path == "/dev/mem" else 0
        words = [
            python or ("python3" if remote else sys.executable),
            "-E",
            "-s",
            "-u",
            "-c",
            _WORKER,
        ]
        words += [path, str(offset), str(size)]
        self._command: List[str] = words
        if remote:
            self._command = [*words_of(remote), shlex.join(words)]
        self._child: Optional[Child] = None

    def start(self) -> None:
        self._broken = None
        self._child = Child(self._command, self.note)
        until = time.monotonic() + self._start_timeout
        try:
            said = self._child.line(until, self._start_timeout, "mmap")
        except TargetError as error:
            self.close()
            raise TargetStartError(f"{self._path} can't be mapped: {error}") from error
        if not said.startswith("ok "):
            self.close()
            raise TargetStartError(f"{self._path} can't be mapped: {said}")

    def load(self, access: Access) -> Optional[int]:
        said = self._ask(access, "")
        if said is None:
            return None
        try:
            return int(said, 16)
        except ValueError as error:
            raise TargetAnswerError(
                f"the mapping answered `{said}`", access.request.text
            ) from error

    def store(self, access: Access) -> bool:
        said = self._ask(access, f" {access.value:#x}")
        if said not in (None, "ok"):
            raise TargetAnswerError(f"the mapping answered `{said}`", access.request.text)
        return said is not None

    def close(self) -> None:
        if self._child:
            self._child.close()
            self._child = None

    def _ask(self, access: Access, value: str) -> Optional[str]:
        """The answer of the process, or None where the access is outside or ended by a bus error."""
        at, request = access.address - self._base, access.request.text
        if at < 0 or at + access.size > self._size:
            self.note(f"{access.address:#x} isn't in the mapping: `{request}`")
            return None
        if self._child is None:
            self.start()
        assert self._child
        try:
            self._child.send(f"{access.size} {at}{value}", request)
            return self._child.line(time.monotonic() + self.timeout, self.timeout, request)
        except TargetEnded as error:
            if "SIGBUS" not in str(error) and "status 135" not in str(error):
                raise
            self.note(f"a bus error (SIGBUS) at {access.address:#x}: `{request}`")
            self.close()
            return None
