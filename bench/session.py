#!/usr/bin/env python3
"""session.py PROGRAM [N]: how many operations a second a session of the Python package makes over the model of a device.

Each kind of operation is made N times (20,000), one after the other, and has a line.
"""
import pathlib, sys, time

top = pathlib.Path(__file__).resolve().parents[1]
sys.path.insert(0, str(top / "python"))
import regrun

KINDS = [
    ("write of a register", lambda s: s.write("uart.ctrl", 0x10001)),
    ("read of a register", lambda s: s.read("uart.ctrl")),
    ("check of a register", lambda s: s.check("uart.ctrl")),
    ("a field by attribute", lambda s: setattr(s.uart.ctrl, "en", 1)),
    ("a backdoor's peek", lambda s: s.peek("uart.ctrl")),
]


def main():
    program, count = sys.argv[1], int(sys.argv[2]) if len(sys.argv) > 2 else 20_000
    with regrun.Session(top / "examples/uart.regrun", program=program) as s:
        for name, operation in KINDS:
            start = time.perf_counter()
            for _ in range(count):
                operation(s)
            print(f"{name}: {count / (time.perf_counter() - start):,.0f} a second")


if __name__ == "__main__":
    main()
