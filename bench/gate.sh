#!/usr/bin/env bash
# gate.sh [NAME..]: measures what the gate costs crate by crate, the named crates or all, and prints a table in Markdown.
#
# Each crate is measured from nothing and with one job: its library or program, its tests, and each edit that must fail,
# which begins with what the crate's own proof kept, as in the gate. The figures are processor time of the prover, which
# other work on the machine changes little; the whole takes somewhat longer than the rows together. The crates below those
# that are named are taken from what this machine kept, and the table says so. All is done in a copy of the tree. With
# GATE_LOG=FILE, FILE gets a line for each run of the prover. With GATE_MODULES=FILE, FILE gets a line for each module that
# the prover made of a crate and its proofs, with the seconds that it took, the longest first.
set -eu
exec python3 - "$(dirname "$(dirname "$(realpath "$0")")")" "$@" << 'PY'
import json, os, re, shutil, subprocess, sys, tempfile, time

top, names = sys.argv[1], sys.argv[2:]
# The kit's prover, timed: a line of JSON for each run.
TIMED = '''#!/usr/bin/env python3
import json, os, signal, sys, time
start = time.monotonic()
pid = os.posix_spawn(os.environ["GATE_PROVER"], sys.argv, os.environ)
_, status, used = os.wait4(pid, 0)
if "--crate-name" in sys.argv:
    took = [time.monotonic() - start, used.ru_utime + used.ru_stime]
    with open(os.environ["GATE_TIMES"], "a") as log:
        log.write(json.dumps([took, os.waitstatus_to_exitcode(status), sys.argv[1:]]) + "\\n")
if os.WIFSIGNALED(status):
    os.kill(os.getpid(), os.WTERMSIG(status))
sys.exit(os.waitstatus_to_exitcode(status))
'''


def read_crates():
    """The libraries that each crate stands on, by its name; of the kit's libraries none."""
    lines = [line.partition("#")[0].partition(":") for line in open(f"{top}/crates.txt")]
    uses = {head.split()[0]: rest.split() for head, colon, rest in lines if colon}
    return {name: [it for it in used if it in uses] for name, used in uses.items()}


def in_order(names, uses):
    """The crates and those below them, each after those that it stands on."""
    found = []
    for name in names:
        found += [it for it in [*in_order(uses[name], uses), name] if it not in found]
    return found


def kit_without_store(kit, room):
    """A folder of links to the kit's parts, beside which nothing is kept, whose prover is timed. Gives its rt."""
    os.makedirs(f"{room}/kit/bin")
    for part in ("", "bin/"):
        for name in os.listdir(f"{kit}/{part}"):
            if name not in ("bin", "rt", "rtlib.py", "rattle") or part + name == "rattle":
                os.symlink(f"{kit}/{part}{name}", f"{room}/kit/{part}{name}")
    for name in ("rt", "rtlib.py"):
        shutil.copy(f"{kit}/bin/{name}", f"{room}/kit/bin/{name}")
    with open(f"{room}/kit/bin/rattle", "w") as script:
        script.write(TIMED)
    os.chmod(f"{room}/kit/bin/rattle", 0o755)
    return f"{room}/kit/bin/rt"


class Gate:
    """The copy of the tree in which all is measured."""

    def __init__(self, room):
        self.repo, self.times = f"{room}/repo", f"{room}/times"
        self.kit = os.path.dirname(subprocess.run(["rt", "doc"], stdout=subprocess.PIPE, text=True, check=True).stdout.strip())
        self.rt = kit_without_store(self.kit, room)
        os.mkdir(self.repo)
        os.mkdir(f"{self.repo}/.git")
        for name in ("crates.txt", "HANDLES"):
            shutil.copy(f"{top}/{name}", f"{self.repo}/{name}")
        shutil.copytree(f"{top}/crates", f"{self.repo}/crates", ignore=shutil.ignore_patterns("out"))

    def call(self, crate, rt, *words, given=None):
        """Runs rt in the crate's folder; gives its status, what it said, and what the prover's runs took."""
        open(self.times, "w").close()
        env = {**os.environ, "GATE_PROVER": f"{self.kit}/bin/rattle", "GATE_TIMES": self.times, "RT_JOBS": "1"}
        where = self.repo if words[0] == "must-fail" else f"{self.repo}/crates/{crate}"
        with open(given or os.devnull) as stdin:
            ran = subprocess.run([rt, *words], cwd=where, env=env, stdin=stdin, stdout=subprocess.PIPE, stderr=subprocess.STDOUT, text=True)
        runs = [json.loads(line) for line in open(self.times)]
        if "GATE_LOG" in os.environ:
            with open(os.environ["GATE_LOG"], "a") as log:
                log.writelines(f"{crate}\t{took[0]:.1f} s\t{took[1]:.1f} s of a processor\tstatus {status}\t{' '.join(said)}\n" for took, status, said in runs)
        return ran.returncode, ran.stdout, runs

    def prove(self, crate):
        folder = f"{self.repo}/crates/{crate}"
        if not os.path.isfile(f"{folder}/src/main.rt"):
            return self.call(crate, self.rt, "lib", "--jobs", "1")
        words = open(f"{folder}/args").read().split("\n")[:-1] if os.path.isfile(f"{folder}/args") else []
        given = f"{folder}/stdin" if os.path.isfile(f"{folder}/stdin") else None
        return self.call(crate, self.rt, "run", "--jobs", "1", "--", *words, given=given)

    def prove_tests(self, crate):
        """As the gate does, from nothing; what the crate's own proof kept comes back for the edits."""
        kept = f"{self.repo}/crates/{crate}/out/incremental"
        os.rename(kept, f"{kept}-of-the-crate")
        made = self.call(crate, self.rt, "check", "--test", "--jobs", "1")
        shutil.rmtree(kept, ignore_errors=True)
        os.rename(f"{kept}-of-the-crate", kept)
        return made

    def measure(self, crate):
        """The row of a crate."""
        folder = f"{self.repo}/crates/{crate}"
        status, said, proof = self.prove(crate)
        if status and not said.count("logic=proved"):
            sys.exit(f"gate.sh: {crate} isn't proved:\n{said[-2000:]}")
        tell_modules(crate, f"{folder}/out/incremental")
        row = {"functions": (re.findall(r"^logic=proved functions=(\d+)", said, re.M) or ["-"])[-1], "proof": proof, "tests": [], "edits": [], "each": {}}
        tell(f"{crate}: proved in {seconds(proof)} s")
        sources = [f"{at}/{name}" for at, _, files in os.walk(f"{folder}/src") for name in files]
        if any("#[test]" in open(it).read() for it in sources):
            status, said, row["tests"] = self.prove_tests(crate)
            if status:
                sys.exit(f"gate.sh: the tests of {crate} aren't proved:\n{said[-2000:]}")
            tell(f"{crate}: tests proved in {seconds(row['tests'])} s")
        edits = sorted(it for it in os.listdir(f"{folder}/must-fail") if it.endswith(".edit")) if os.path.isdir(f"{folder}/must-fail") else []
        if edits:
            status, said, row["edits"] = self.call(crate, self.rt, "must-fail", crate)
            if status:
                tell("\n".join(it for it in said.split("\n") if "refused, as it must be" not in it))
            for run in row["edits"]:
                number = re.search(r"/rt-edits-[^/]*/(\d+)$", (run[2] + [""])[run[2].index("--incremental") + 1] if "--incremental" in run[2] else "")
                if number:
                    row["each"][edits[int(number[1])].removesuffix(".edit")] = run[0][1]
            tell(f"{crate}: {len(edits)} edits tried in {seconds(row['edits'])} s")
        row["count"] = len(edits)
        shutil.rmtree(f"{folder}/out/incremental", ignore_errors=True)
        return row


def tell_modules(crate, kept):
    """Appends what each module took to GATE_MODULES. One job checks them in turn, and keeps each as it ends with it."""
    if "GATE_MODULES" not in os.environ:
        return
    files = sorted((os.stat(f"{at}/{name}").st_mtime, name) for at, _, names in os.walk(kept) for name in names)
    took = sorted(((end - start, name) for (start, _), (end, name) in zip(files, files[1:])), reverse=True)
    with open(os.environ["GATE_MODULES"], "a") as log:
        log.writelines(f"{crate}\t{each:.1f} s\t{name.removesuffix('.oantt')}\n" for each, name in took)


def tell(text):
    print(f"gate.sh: {text}", file=sys.stderr, flush=True)


def seconds(runs):
    return round(sum(took[1] for took, _, _ in runs))


def machine():
    with open("/proc/cpuinfo") as it:
        model = re.search(r"^model name\s*:\s*(.*)", it.read(), re.M)
    with open("/proc/meminfo") as it:
        memory = int(it.read().split()[1]) / 1e6
    return f"{len(os.sched_getaffinity(0))} processors ({' '.join(model[1].split()) if model else 'unknown'}), {memory:.0f} GB of memory"


def print_table(rows, below):
    version = subprocess.run(["rt", "version"], stdout=subprocess.PIPE, text=True).stdout.strip()
    commit = subprocess.run(["git", "-C", top, "log", "-1", "--format=%h"], stdout=subprocess.PIPE, text=True).stdout.strip()
    kept = f"kept from earlier, and not measured: {' '.join(below)}" if below else "nothing was kept"
    print(f"Seconds of one processor. Commit {commit}, {version}, {machine()}; {kept}.\n")
    print("| crate | functions | proof, s | tests, s | edits | all edits, s | the longest edit, s | together, min |")
    print("|---|--:|--:|--:|--:|--:|---|--:|")
    for name, row in rows.items():
        longest = max(row["each"], key=row["each"].get, default=None)
        told = f"{row['each'][longest]:.0f} {longest}" if longest else ""
        tests = seconds(row["tests"]) if row["tests"] else ""
        edits = seconds(row["edits"]) if row["edits"] else ""
        minutes = seconds(row["proof"] + row["tests"] + row["edits"]) / 60
        print(f"| {name} | {row['functions']} | {seconds(row['proof'])} | {tests} | {row['count'] or ''} | {edits} | {told} | {minutes:.1f} |")
    every = list(rows.values())
    sums = [seconds([run for row in every for run in row[part]]) for part in ("proof", "tests", "edits")]
    print(f"| all | | {sums[0]} | {sums[1]} | {sum(row['count'] for row in every)} | {sums[2]} | | {sum(sums) / 60:.1f} |")


def main():
    uses = read_crates()
    for it in names:
        if it not in uses:
            sys.exit(f"gate.sh: crates.txt names no crate {it}")
    wanted = names or list(uses)
    rows, below = {}, []
    with tempfile.TemporaryDirectory(prefix="gate-") as room:
        gate = Gate(room)
        for crate in in_order(wanted, uses):
            if crate in wanted:
                rows[crate] = gate.measure(crate)
            else:
                status, said, _ = gate.call(crate, "rt", "lib")
                if status:
                    sys.exit(f"gate.sh: {crate} isn't proved:\n{said[-2000:]}")
                below.append(crate)
    print_table(rows, below)


main()
PY
