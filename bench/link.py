#!/usr/bin/env python3
"""link.py PROGRAM [COUNT]: how many transfers a second go over a link whose peer answers at once, over two pipes."""
import os
import subprocess
import sys
import tempfile
import time

DESCRIPTION = """[[reg]]
name = "ctrl"
bytes = 4
field = [{ name = "value", lsb = 0, width = 32, policy = "RW", reset = 0 }]
[[map]]
name = "bus"
bytes = 4
[[place]]
map = "bus"
item = "ctrl"
---
"""


def peer(requests, answers):
    """Answers `ok` to whatever comes: each read has one request."""
    while os.read(requests, 4096):
        os.write(answers, b"ok\n")


def main():
    program = os.path.realpath(sys.argv[1])
    count = int(sys.argv[2]) if len(sys.argv) > 2 else 200_000
    with tempfile.TemporaryDirectory() as room:
        session = os.path.join(room, "session")
        with open(session, "w", encoding="ascii") as out:
            out.write(DESCRIPTION)
            out.writelines(f"write ctrl {number}\n" for number in range(count))
        requests, to_peer = os.pipe()
        from_peer, answers = os.pipe()
        child = os.fork()
        if child == 0:
            os.close(to_peer)
            os.close(from_peer)
            peer(requests, answers)
            os._exit(0)
        os.close(requests)
        os.close(answers)
        start = time.perf_counter()
        words = [program, session, os.path.join(room, "log")]
        status = subprocess.run(words, stdin=from_peer, stdout=to_peer, check=False).returncode
        seconds = time.perf_counter() - start
        os.close(to_peer)
        os.close(from_peer)
        os.waitpid(child, 0)
        size = os.path.getsize(os.path.join(room, "log"))
    print(f"{count} transfers in {seconds:.2f} s: {count / seconds:,.0f} a second, status {status}, log of {size} bytes")


if __name__ == "__main__":
    main()
