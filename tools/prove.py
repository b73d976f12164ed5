#!/usr/bin/env python3
"""prove.py CRATE JOBS: proves a crate and builds it, a library or a program, and prints a line; all that is said is in build/log.

A library is proved from nothing and written by its statements, without its proofs: each crate above reads all that it
stands on, and the proofs took most of that time. A program is proved, compiled, linked and run on a word that it doesn't know,
which it answers by status 6. No command of `rt` writes statements for one library, and `rt run` lets no other program be proved beside it.
So the kit's own part bin/rtlib.py is asked for the words of the prover, and for the stamp by which `rt` knows what is built.
Where a kit has no such part, and where `rt check` has kept work of a library, `rt lib` and `rt run` do it in their time.
"""
import os, shutil, signal, subprocess, sys, time

TOP = os.path.dirname(os.path.dirname(os.path.realpath(__file__)))
UNKNOWN_WORD = 6
WORD = "no-such-word"


class Kit:
    """The kit's rtlib. A stamp is read once for each library, and not once for each way that leads down to it."""

    def __init__(self):
        page = subprocess.run(["rt", "doc"], stdout=subprocess.PIPE, stdin=subprocess.DEVNULL, text=True).stdout.strip()
        sys.path.insert(0, f"{os.path.dirname(page)}/bin")
        import rtlib

        if "--statements" not in rtlib.help_of("build"):
            raise AttributeError("no statements")
        self.part, self.stamps, read = rtlib, {}, rtlib.Crate.stamp

        def stamp(crate):
            if crate.folder not in self.stamps:
                self.stamps[crate.folder] = read(crate)
            return self.stamps[crate.folder]

        rtlib.Crate.stamp = stamp
        # What is started from here on ends with this process, however that ends.
        rtlib.guarded()

    def crate(self, folder):
        return self.part.Crate(folder, TOP, {})

    def is_same(self, crate, stamp):
        """Whether no source has changed since the stamp was read."""
        self.stamps.clear()
        return crate.stamp() == stamp

    def build_library(self, folder, jobs):
        crate = self.crate(folder)
        if crate.is_built():
            return 0
        made, stamp = f"{folder}/out/rlib", crate.stamp()
        shutil.rmtree(made, ignore_errors=True)
        os.makedirs(made)
        words = crate.words(["--jobs", jobs], keeps=False)
        status = crate.call(self.part.RATTLE, "build", *words, "--statements", "-o", crate.rlib)
        if status == 0 and self.is_same(crate, stamp):
            with open(f"{made}/stamp", "w", encoding="utf-8") as it:
                it.write(stamp)
        return status

    def build_program(self, folder, jobs):
        crate = self.crate(folder)
        os.makedirs(f"{folder}/out", exist_ok=True)
        crate.held, stamp = [], crate.stamp()
        status = crate.run(["--jobs", jobs], [WORD])
        if not self.is_same(crate, stamp):
            os.remove(f"{folder}/out/{crate.name}.stamp")
            return 1
        return status


def kit_or_none():
    try:
        return Kit()
    except (ImportError, AttributeError, OSError):
        return None


def build_library(folder, jobs):
    kit = None if os.path.isdir(f"{folder}/out/incremental") else kit_or_none()
    return kit.build_library(folder, jobs) if kit else subprocess.call(["rt", "lib", "--jobs", jobs])


def build_program(folder):
    """One job: each further one is a copy of all that the program stands on."""
    kit = kit_or_none()
    status = kit.build_program(folder, "1") if kit else subprocess.call(["rt", "run", "--jobs", "1", "--", WORD])
    return 0 if status == UNKNOWN_WORD else status or 1


def write_to(log):
    """Sends standard output and error to a file, takes standard input away, and gives where standard output went."""
    os.makedirs(os.path.dirname(log), exist_ok=True)
    said = os.dup(1)
    for stream, file in ((0, os.open(os.devnull, os.O_RDONLY)), (1, os.open(log, os.O_WRONLY | os.O_CREAT | os.O_TRUNC | os.O_APPEND, 0o644)), (2, 1)):
        os.dup2(file, stream)
    return said


def main():
    crate, jobs = sys.argv[1:]
    folder, log, start = f"{TOP}/crates/{crate}", f"build/log/{crate}", time.time_ns()
    is_program = os.path.exists(f"{folder}/src/main.rt")
    built = f"{folder}/out/{crate}" if is_program else f"{folder}/out/rlib/stamp"
    said = write_to(f"{TOP}/{log}")
    signal.signal(signal.SIGINT, signal.SIG_DFL)
    os.chdir(folder)
    status = build_program(folder) if is_program else build_library(folder, jobs)
    if status == 0 and not os.path.exists(built):
        status = 1
    text = f"NOT proved; see {log}" if status else f"proved, {(time.time_ns() - start) // 10**9} s"
    if status == 0:
        # A source that was changed meanwhile is newer than this.
        os.utime(built, ns=(start, start))
    os.write(said, f"{crate}: {text}\n".encode())
    return status


sys.exit(main())
