#!/usr/bin/env bash
# bench.sh BIN..: times each binary on the works below, side by side, and prints one table: time, peak memory, page faults
# and instructions, each with the ratio to the first. Best of RUNS (default 5) rounds; in each round all binaries run one
# after the other, so that a slow moment of the machine meets all of them. INSTR=0 leaves out the instruction counts.
# With two binaries or more, the first is the one to be as good as: a line says for each work whether the last one is
# within its bound. ONLY=WORD.. takes the works whose titles have one of these words alone.
set -eu
here=$(dirname "$(realpath "$0")")
work=${WORK:-$here/bench-work}
python3 "$here/mkwork.py" "$work"
exec python3 - "$work" "$@" <<'PY'
import os, re, shutil, subprocess, sys, tempfile, time

work, bins = sys.argv[1], [os.path.realpath(b) for b in sys.argv[2:]]
if not bins:
    sys.exit("usage: bench.sh BIN...")
runs = int(os.environ.get("RUNS", "5"))
limit = float(os.environ.get("LIMIT", "600"))
# A title, the words, the session, how often it is started in a row, and the bound of its ratio to the first binary.
works = [
    ("soak 1", ["soak", "1"], None, 1, 1.0),
    ("soak 7", ["soak", "7"], None, 1, 1.0),
    ("run mixed 100,000 lines", ["run"], "mixed", 1, 1.0),
    ("weave 1, 100,000 words", ["weave", "1"], "woven", 1, 1.0),
    ("run mem-walk 65,536", ["run"], "memwalk", 1, 1.0),
    ("run 1,000,000 blank", ["run"], "blank", 1, 1.0),
    ("map 4,096 places", ["map"], "places", 1, 1.0),
    ("run largest device", ["run"], "largest", 1, 1.0),
    ("run fifo, 20,000 accesses", ["run"], "fifo", 1, 1.0),
    ("run 50,000 narrow fields", ["run"], "narrow", 1, 1.0),
    ("run bursts of 256", ["run"], "bursts", 1, 1.0),
    ("run bit-bash 1,024", ["run"], "bash", 1, 1.0),
    ("run paths of 8 names", ["run"], "tree", 1, 1.0),
    ("run 1,000 starts", ["run"], "start", 1000, 1.0),
]
only = os.environ.get("ONLY", "").split()
works = [it for it in works if not only or any(word in it[0].split() for word in only)]


def once(binary, words, session, starts):
    """Seconds from start to end, CPU seconds, the status and the page faults, over so many starts in a row."""
    rounds = [start_once(binary, words, session) for _ in range(starts)]
    return tuple(sum(it) for it in list(zip(*rounds))[:2]) + (rounds[-1][2], sum(it[3] for it in rounds))


def start_once(binary, words, session):
    source = os.open(os.path.join(work, session + ".session") if session else os.devnull, os.O_RDONLY)
    sink = os.open(os.devnull, os.O_WRONLY)
    start = time.perf_counter()
    pid = os.posix_spawn(binary, [binary] + words, os.environ,
                         file_actions=[(os.POSIX_SPAWN_DUP2, source, 0), (os.POSIX_SPAWN_DUP2, sink, 1)])
    _, status, usage = os.wait4(pid, 0)
    wall = time.perf_counter() - start
    os.close(source)
    os.close(sink)
    return wall, usage.ru_utime + usage.ru_stime, os.waitstatus_to_exitcode(status), usage.ru_minflt


def peak(binary, words, session):
    """Peak memory in MiB, by /usr/bin/time, whose own is small."""
    path = os.path.join(work, session + ".session") if session else os.devnull
    with open(path, "rb") as source, tempfile.NamedTemporaryFile("r") as out:
        subprocess.run(["/usr/bin/time", "-q", "-f", "%M", "-o", out.name, binary] + words, stdin=source,
                       stdout=subprocess.DEVNULL, stderr=subprocess.DEVNULL)
        return int(out.read().split()[-1]) / 1024


def instructions(binary, words, session):
    if os.environ.get("INSTR") == "0":
        return None
    path = os.path.join(work, session + ".session") if session else os.devnull
    tool = shutil.which("valgrind")
    if tool is None:
        return None
    with open(path, "rb") as source, tempfile.TemporaryDirectory() as tmp:
        try:
            done = subprocess.run([tool, "--tool=callgrind", f"--callgrind-out-file={tmp}/o", binary] + words,
                                  stdin=source, stdout=subprocess.DEVNULL, stderr=subprocess.PIPE, timeout=limit)
        except subprocess.TimeoutExpired:
            return None
    found = re.search(rb"Collected : (\d+)", done.stderr)
    return int(found.group(1)) if found else None


def same_output(words, session):
    """Whether all binaries write the same bytes with the same status."""
    path = os.path.join(work, session + ".session") if session else os.devnull
    seen = set()
    for binary in bins:
        with open(path, "rb") as source:
            done = subprocess.run([binary] + words, stdin=source, stdout=subprocess.PIPE, stderr=subprocess.DEVNULL)
        seen.add((done.returncode, hash(done.stdout)))
    return len(seen) == 1


names = [os.path.basename(b) for b in bins]
for n, name in enumerate(names):
    print(f"binary {n + 1}: {bins[n]}")
head = (f"{'work':<26}{'bin':>4}{'wall s':>10}{'cpu s':>10}{'ratio':>8}{'MiB':>9}{'ratio':>8}{'faults':>9}{'Minstr':>10}"
        f"{'ratio':>8}  output")
print(head)
print("-" * len(head))


def ratio(value, first):
    return f"{value / first:>8.2f}" if value and first else f"{'-':>8}"


def verdict(title, bound, told, same):
    """Whether a work is within its bound, by what was measured of it and of the first binary."""
    over = [f"{name} {value / base:.2f}" for name, (value, base) in told.items() if value and base and value > bound * base]
    within = f"over {bound}: {', '.join(over)}" if over else f"within {bound}"
    return f"{title}: {within}" + ("" if same else ", but the output differs")


verdicts = []
for title, words, session, starts, bound in works:
    best = [(1e9, 1e9, 0, 0)] * len(bins)
    slowest = 0
    for binary in bins:                      # once to warm the caches
        slowest = max(slowest, once(binary, words, session, starts)[0])
    # A short work is run more often, for a steadier best.
    for _ in range(runs if slowest > 0.2 else 4 * runs):
        for n, binary in enumerate(bins):
            wall, cpu, code, faults = once(binary, words, session, starts)
            best[n] = (min(wall, best[n][0]), min(cpu, best[n][1]), code, faults)
    same = len(bins) == 1 or same_output(words, session)
    first = None
    for n, (wall, cpu, code, faults) in enumerate(best):
        count = instructions(bins[n], words, session)
        memory = peak(bins[n], words, session)
        if n == 0:
            first = (wall, memory, count)
        line = f"{title:<26}{n + 1:>4}{wall:>10.4f}{cpu:>10.4f}{ratio(wall, first[0])}"
        line += f"{memory:>9.1f}{ratio(memory, first[1])}{faults:>9}"
        line += f"{count * starts / 1e6:>10.1f}" if count else f"{'-':>10}"
        line += ratio(count, first[2])
        note = "same" if same else "DIFFERS"
        print(line + f"  {note}" + (f", status {code}" if code else ""), flush=True)
    if len(bins) > 1:
        told = {"time": (wall, first[0]), "memory": (memory, first[1]), "instructions": (count, first[2])}
        verdicts.append(verdict(title, bound, told, same))
print("\n".join(verdicts), end="\n" if verdicts else "")
PY
