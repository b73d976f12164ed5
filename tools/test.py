#!/usr/bin/env python3
"""test.py: runs every check of this repository on the programs at hand, side by side; `make test` calls it.

A program is the proved one where that stands and is current, else a trial, which is compiled first: `./NAME --program` gives
its path. The last line of each check is `N passed, M failed` or `N passed, M failed, K skipped`, and so is the last line
of all, with the sums; the status is 0 where nothing failed. A check that prints no counts, or doesn't end, or ends with
another status than 0 though it counts no failure, counts as one that failed. What such a check said stands at the end.
"""
import concurrent.futures, os, re, subprocess, sys, time

TOP = os.path.dirname(os.path.dirname(os.path.realpath(__file__)))
COUNTS = re.compile(r"^(\d+) passed, (\d+) failed(?:, (\d+) skipped.*)?$")
# The seconds after which a check is ended.
LIMIT = int(os.environ.get("LIMIT", "1200"))
NOT_INSTALLED = 77
PROGRAMS = ("regrun-grade", "regrun", "regrun-plan", "regrun-waves", "regrun-link")

# Each check: its name, the programs that it needs, and its command, in which `{regrun}` and so on stand for their paths; those
# that take long first. A check whose name is a file that isn't there isn't one of this checkout.
CHECKS = [
    ("tools/shells.sh", "bash tools/shells.sh"),
    ("rows/launcher.sh", "bash rows/launcher.sh"),
    ("rows/schema.py", "python3 rows/schema.py"),
    ("editors/check.sh", "bash editors/check.sh"),
    ("docs/check.sh", "bash docs/check.sh"),
    ("rows/check.sh, limits", "bash rows/check.sh {regrun} limits"),
    ("rows/check.sh, crowds", "bash rows/check.sh {regrun} crowds"),
    ("rows/grade.sh, texts", "bash rows/grade.sh {regrun-grade} {regrun} texts"),
    ("rows/grade.sh, beside", "bash rows/grade.sh {regrun-grade} {regrun} beside"),
    ("rows/plan.py", "python3 rows/plan.py {regrun-plan} {regrun-grade} {regrun}"),
    ("docs/DETECTION.md", "bash docs/check.sh {regrun-grade}"),
    ("rows/check.sh, sessions", "bash rows/check.sh {regrun} sessions"),
    ("examples/rtl/run.sh, verilator", "env TOOL=verilator bash examples/rtl/run.sh {regrun-link}"),
    ("rows/waves.sh", "bash rows/waves.sh {regrun-waves} {regrun-link}"),
    ("python/check.sh", "bash python/check.sh"),
    ("examples/regression/check.sh", "bash examples/regression/check.sh {regrun}"),
    ("examples/rtl/run.sh, iverilog", "env TOOL=iverilog bash examples/rtl/run.sh {regrun-link}"),
    ("examples/rtl/run.sh, ghdl", "env TOOL=ghdl bash examples/rtl/run.sh {regrun-link}"),
    ("rows/link.sh", "bash rows/link.sh {regrun-link} {regrun} {regrun-grade} {regrun-waves}"),
    ("rows/words.sh", "bash rows/words.sh {regrun} {regrun-link} {regrun-waves} {regrun-grade} {regrun-plan}"),
]


def call(command, **environment):
    """Runs a command, with all that it starts ended after LIMIT; gives its status and what it said."""
    how = {"stdin": subprocess.DEVNULL, "stdout": subprocess.PIPE, "stderr": subprocess.STDOUT}
    limited = ["timeout", "--kill-after=5", str(LIMIT), *command]
    ran = subprocess.run(limited, **how, errors="replace", text=True, env={**os.environ, **environment}, cwd=TOP)
    return ran.returncode, ran.stdout


def find(name):
    """The path of a program, compiled where it isn't there, and what was said; no path where there is none."""
    said = subprocess.run([f"./{name}", "--program"], capture_output=True, text=True, stdin=subprocess.DEVNULL, cwd=TOP)
    return said.stdout.strip() if said.returncode == 0 else None, said.stderr.strip()


def counts_of(status, said):
    """The passed, failed and skipped of a check."""
    last = said.rstrip().rsplit("\n", 1)[-1]
    found = COUNTS.match(last)
    if status == NOT_INSTALLED:
        return 0, 0, 1
    if not found:
        return 0, 1, 0
    passed, failed, skipped = (int(it or 0) for it in found.groups())
    return passed, failed or int(status != 0), skipped


def perform(check, programs):
    """Waits for the check's programs and runs it; prints its name, its time and its last line; gives its counts and what it said."""
    name, command = check
    needs = [it for it in PROGRAMS if f"{{{it}}}" in command or "python" in name]
    paths = {it: programs[it].result()[0] for it in needs}
    missing = [it for it in needs if not paths[it]]
    if missing:
        return tell(name, "", 0, f"there is no program {missing[0]}\n0 passed, 1 failed", (0, 1, 0))
    trials = [it for it in needs if is_trial(paths[it])]
    environment = {it.upper().replace("-", "_"): paths[it] for it in needs}
    if trials:
        environment["TRIAL"] = "yes"
    start = time.monotonic()
    status, said = call(["sh", "-c", filled(command, paths)], **environment)
    return tell(name, " on a trial" if trials else "", time.monotonic() - start, said.rstrip(), counts_of(status, said))


def is_trial(path):
    return path.startswith(f"{TOP}/build/")


def filled(command, paths):
    for name, path in paths.items():
        command = command.replace(f"{{{name}}}", f"'{path}'")
    return command


def tell(name, kind, seconds, said, counts):
    print(f"== {name}{kind}, {seconds:.0f} s", said.rsplit("\n", 1)[-1], sep="\n", flush=True)
    return counts, f"== {name}{kind}\n{said}"


def is_here(check):
    return os.path.exists(f"{TOP}/{check[0].split(',')[0]}")


def main():
    start, workers = time.monotonic(), len(os.sched_getaffinity(0))
    with concurrent.futures.ThreadPoolExecutor(workers) as pool:
        programs = {it: pool.submit(find, it) for it in PROGRAMS}
        results = [pool.submit(perform, it, programs) for it in CHECKS if is_here(it)]
        for name in PROGRAMS:
            path, said = programs[name].result()
            kind = "no program" if not path else "a trial, not proved" if is_trial(path) else "proved"
            print(f"{name}: {kind}" + ("" if path else f": {said}"), flush=True)
        ended = [it.result() for it in results]
    sums = [sum(it) for it in zip(*(counts for counts, _ in ended))]
    print(*(said for counts, said in ended if counts[1]), f"({time.monotonic() - start:.0f} s)", sep="\n")
    print(f"{sums[0]} passed, {sums[1]} failed, {sums[2]} skipped")
    return int(sums[1] > 0)


sys.exit(main())
