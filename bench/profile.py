#!/usr/bin/env python3
"""profile.py BIN [WORK..]: where a program's instructions go on the works of bench.sh, as a table of Markdown for each work.

A row is a crate of the repository or of the kit, or what libc does: code that was inlined counts for the crate of the function that
it stands in. Behind a crate's name stand its functions that take two hundredths of the work or more, four at most. Needs valgrind. A
work is named by its session, as mixed or woven, or soak; with none, all are taken.
"""
import collections
import os
import re
import subprocess
import sys
import tempfile

WORDS = {"soak": ["soak", "1"], "woven": ["weave", "1"], "places": ["map"]}
WORKS = ["soak", "mixed", "woven", "memwalk", "blank", "places", "largest", "fifo", "narrow", "bursts", "bash", "tree"]
LIBC = {"memset": "zeroing and copying", "memcpy": "zeroing and copying", "memmove": "zeroing and copying", "memcmp": "libc"}
LIBC |= {name: "allocation" for name in ("malloc", "free", "realloc", "calloc", "unlink_chunk", "malloc_consolidate")}


def costs(binary, work, sessions, room):
    """The instructions of each function, what it calls left out."""
    session = f"{sessions}/{work}.session"
    with open(session if os.path.exists(session) else os.devnull, "rb") as source:
        command = ["valgrind", "--tool=callgrind", f"--callgrind-out-file={room}/out", binary, *WORDS.get(work, ["run"])]
        subprocess.run(command, stdin=source, stdout=subprocess.DEVNULL, stderr=subprocess.DEVNULL, check=False)
    found, names, here, called = collections.Counter(), {}, "", False
    for line in open(f"{room}/out", errors="replace"):
        if match := re.match(r"fn=\((\d+)\)(?: (.*))?", line):
            here = names.setdefault(match[1], match[2])
        elif match := re.match(r"cfn=\((\d+)\) (.*)", line):
            names[match[1]] = match[2]
        elif line.startswith("calls="):
            called = True
        elif match := re.match(r"[+*0-9x-]\S* (\d+)$", line):
            found[here] += 0 if called else int(match[1])
            called = False
    return found


def part_of(function):
    """The crate of a function, or what libc does by it, and the function's name there."""
    function = re.sub(r"(::)?<#.*|'\d+$", "", function)
    if "::" in function:
        return tuple(re.sub(r"^<", "", function).split("::", 1))
    plain = re.sub(r"^_+(int_)?|_(avx|evex|sse|unaligned|erms).*|\..*", "", function)
    return LIBC.get(plain, "libc"), plain


def show(work, found):
    """Prints the table of a work."""
    total = sum(found.values())
    parts, inside = collections.Counter(), collections.defaultdict(collections.Counter)
    for function, cost in found.items():
        part, name = part_of(function)
        parts[part] += cost
        inside[part][name] += cost
    print(f"\n| {work}: {total / 1e6:.0f} million | million | share |\n|---|--:|--:|")
    for part, cost in parts.most_common():
        if cost * 100 < total:
            break
        large = [f"`{name}` {its / 1e6:.1f}" for name, its in inside[part].most_common(4) if its * 50 >= total and "::" in name]
        print(f"| {part}{': ' if large else ''}{', '.join(large)} | {cost / 1e6:.1f} | {100 * cost / total:.0f} % |")


def main():
    """Profiles each work that was asked for."""
    here = os.path.dirname(os.path.realpath(__file__))
    sessions = os.environ.get("WORK", f"{here}/bench-work")
    subprocess.run(["python3", f"{here}/mkwork.py", sessions], check=True)
    for work in sys.argv[2:] or WORKS:
        with tempfile.TemporaryDirectory() as room:
            show(work, costs(sys.argv[1], work, sessions, room))


if __name__ == "__main__":
    main()
