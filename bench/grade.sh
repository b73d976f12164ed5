#!/usr/bin/env bash
# grade.sh BIN: grades a script of 1,000 lines on a chip of 256 registers of 32 bits, with two fields each, by the built
# program regrun_grade (crates/regrun_grade/out/regrun_grade) on one processor, and prints how many flaws were tried and how
# many seconds of processor time it took. The status is 0 where they are within the bound of 20.
set -eu
bin=$(realpath "${1:?usage: grade.sh BIN}")
exec python3 - "$bin" <<'PY'
import resource, subprocess, sys

BOUND, REGISTERS, LINES = 20.0, 256, 1000


def session():
    """Each register is written, checked, written with the inverse and checked."""
    for reg in range(REGISTERS):
        fields = ", ".join('{{name = "{}", lsb = {}, width = 16, policy = "RW", reset = {}}}'.format(name, lsb, reg)
                           for name, lsb in (("low", 0), ("high", 16)))
        yield '[[reg]]\nname = "r{}"\nbytes = 4\nfield = [{}]\n'.format(reg, fields)
    yield '[[map]]\nname = "bus"\nbytes = 4\n'
    for reg in range(REGISTERS):
        yield '[[place]]\nmap = "bus"\nitem = "r{}"\noffset = {}\n'.format(reg, 4 * reg)
    yield "---\n"
    for line in range(LINES):
        turn, reg = divmod(line, REGISTERS)
        value = (0x5a5a5a5a ^ reg * 0x01010101 ^ (0xffffffff if turn == 2 else 0)) % 2**32
        yield "check r{}\n".format(reg) if turn % 2 else "write r{} {:#x}\n".format(reg, value)


done = subprocess.run([sys.argv[1], "run"], input="".join(session()).encode(), stdout=subprocess.PIPE)
used = resource.getrusage(resource.RUSAGE_CHILDREN)
seconds = used.ru_utime + used.ru_stime
print(done.stdout.decode().rstrip("\n").split("\n")[-1])
print("{:.1f} s, bound {:.0f} s: {}".format(seconds, BOUND, "within" if seconds <= BOUND else "over"))
sys.exit(0 if done.returncode == 0 and seconds <= BOUND else 1)
PY
