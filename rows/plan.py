#!/usr/bin/env python3
"""plan.py PLAN GRADE PROGRAM [COUNT]: certifies the plans of regrun_plan.

For each description of the tree, and for some that are drawn at random, the plan is written by all ways and by the bus
alone, put behind the description, run by PROGRAM (no difference, no bus error, no refused operation) and graded by GRADE.
Each flaw that the grade doesn't find, missed or hidden, must be one that no order shows of the operations that the description
lets through, which is tried bit by bit over each state that model and device can come to. A description that is refused is refused in the words of
PROGRAM, and one with flaws of its own for these.

The word `add` is tried with the plan as the script, to which it adds nothing; with the plan without the lines of every other
register and memory, to which it adds lines of some of these; with no script; and with the scripts of the tree. With the lines
that it adds behind it a script misses nothing but what it misses with the whole plan behind it; and nothing but what the plan
alone misses, and flaws of fields without a value for HARD of which no backdoor is used, which keep what the script made of them.

With COUNT so many drawn descriptions are certified and no other. With a trial (TRIAL in the environment) some are, and the
others skipped. The last line is `N passed, M failed, K skipped`; above it stand the kinds of the flaws that were missed.
Python 3.11 or later and its standard library.
"""
import collections, functools, glob, multiprocessing, os, random, re, subprocess, sys

try:
    import tomllib
except ImportError:
    print("Python 3.11 or later is not installed")
    sys.exit(77)

TOP = os.path.dirname(os.path.dirname(os.path.realpath(__file__)))
sys.path.insert(0, f"{TOP}/bench")
import grades
from grade import POLICIES, SEPARATOR, WRITE_ONLY, left, number, path, reset_kinds, resets_of, written

MOST_LINES, MOST_ON_TRIAL, MOST_ADDED_ON_TRIAL = 40, 24, 3
# The last ones have a field that keeps what the half of their plan makes of it.
DRAWN = (*range(14), 20, 35, 73, 116, 219, 450)
NOTHING = "# nothing to add\n"
BAD = re.compile(r": refused | differ(?: |$)|: bus error at ")
FLAW = re.compile(rb"^\[\[flaw\]\][^\[]*", re.M)

# What is tried of a bit: the policies of model and device, its values by kind of reset in both, the value that it is stuck
# at, and whether the device is deaf.
Bit = collections.namedtuple("Bit", "model device resets others stuck deaf")


def shown(policy, old):
    return 0 if policy in WRITE_ONLY else old


def after(bit, state, operation):
    """The state after an operation, or none where it shows a difference."""
    model, spent, device, spent_there = state
    name, value = operation
    if name == "check" and shown(bit.model, model) != shown(bit.device, device):
        return None
    if name == "back-check" and shown(bit.model, model) != shown(bit.model, device):
        return None
    if name == "check":
        model, device = left(bit.model, model), left(bit.device, device)
    elif name == "back-check":
        model, device = left(bit.model, model), left(bit.model, device)
    elif name == "write":
        model, spent = written(bit.model, model, value, spent), True
        if not bit.deaf:
            device, spent_there = written(bit.device, device, value, spent_there), True
    elif name == "poke":
        model = device = value
    else:
        model = model if bit.resets[value] is None else bit.resets[value]
        device = device if bit.others[value] is None else bit.others[value]
        if value == 0:
            spent = spent_there = False
    return model, spent, device if bit.stuck is None else bit.stuck, spent_there


@functools.lru_cache(None)
def can_show(bit, operations):
    """Whether some order of the operations shows a difference, from the first state on."""
    first = after(bit, (0, False, 0, False), ("reset", 0))
    seen, todo = {first}, [first]
    while todo:
        state = todo.pop()
        for operation in operations:
            new = after(bit, state, operation)
            if new is None:
                return True
            if new not in seen:
                seen.add(new)
                todo.append(new)
    return False


class Chip:
    """A description, with what the bus and the backdoor may do with each item."""

    def __init__(self, described, bus):
        self.kinds = reset_kinds(described)
        self.items = {path(it): it for it in described.get("reg", []) + described.get("mem", [])}
        self.regs = {path(it) for it in described.get("reg", [])}
        self.rights = collections.defaultdict(set)
        for place in described.get("place", []):
            self.rights[place["item"]] |= set({"ro": "r", "wo": "w"}.get(place.get("rights", "rw"), "rw"))
        self.bus = bus

    def operations(self, item):
        rights, found = self.rights[item], [("reset", kind) for kind in range(len(self.kinds))]
        if "r" in rights:
            found.append(("check", 0))
        if "w" in rights:
            found += [("write", 0), ("write", 1)]
        if not self.bus and self.items[item].get("backdoor", True):
            found += [("back-check", 0), ("poke", 0), ("poke", 1)]
        return tuple(found)

    def is_compared(self, field):
        return field.get("compare", not field.get("volatile", False)) and field["policy"] not in WRITE_ONLY

    def bit(self, field, at, **other):
        resets = resets_of(field)
        values = tuple(number(resets[it]) >> at & 1 if it in resets else None for it in self.kinds)
        return Bit(field["policy"], field["policy"], values, values, None, False)._replace(**other)

    def shows(self, item, field, bits):
        return self.is_compared(field) and any(can_show(bit, self.operations(item)) for bit in bits)

    def field_of(self, name):
        """The path of a field's register, and the field."""
        item, _, last = name.rpartition(".")
        return item, next(it for it in self.items[item]["field"] if it["name"] == last)

    def keeps(self, name):
        """Whether it is a field that keeps what a script made of it: it has no value for HARD, and no backdoor is used."""
        if name in self.items:
            return False
        item, field = self.field_of(name)
        return "HARD" not in resets_of(field) and ("poke", 0) not in self.operations(item)

    def is_deaf_shown(self, item):
        it = self.items[item]
        if item not in self.regs:
            return it.get("access", "rw") == "rw" and {"r", "w"} <= self.rights[item]
        return any(self.shows(item, field, [self.bit(field, at, deaf=True) for at in range(number(field["width"]))])
                   for field in it.get("field", []))

    def is_shown(self, name, sort, what):
        """Whether the flaw that a grade tells of a place can be shown: its sort and what it is told by, as the grade has them."""
        if sort in ("item", "deaf", "address") or name in self.items:
            if sort == "deaf":
                return self.is_deaf_shown(name)
            return not (sort.startswith("address") and self.items[name].get("access", "rw") == "ro" and self.rights[name] == {"w"})
        item, field = self.field_of(name)
        if sort == "policy":
            # Of these two a write must come first that spoils the other's, where no reset brings the bit back.
            if {field["policy"], what} == {"WS", "W1S"} and "HARD" not in resets_of(field) and ("poke", 0) not in self.operations(item):
                return False
            return self.shows(item, field, [self.bit(field, at, device=what) for at in range(number(field["width"]))])
        if sort.startswith("stuck"):
            return self.shows(item, field, [self.bit(field, what, stuck=int(sort.split()[2]))])
        own, kind = self.bit(field, what), self.kinds.index(sort.split()[1])
        others = own.resets[:kind] + (1 - own.resets[kind],) + own.resets[kind + 1:]
        return self.shows(item, field, [own._replace(others=others)])


def call(program, given, *words):
    ran = subprocess.run([program, *words], input=given, capture_output=True)
    return ran.returncode, ran.stdout.decode("ascii", "replace"), ran.stderr.decode("ascii", "replace")


def unfound_in(grade):
    """Each flaw of a grade that isn't found: where it is told, its sort, and a number, a policy or other words that it is told by."""
    for name, told in grades.read(grade)[0].items():
        for sort, words in (*told.missed.items(), *told.hidden.items()):
            if sort == "policy":
                words = POLICIES if words[:1] == ["all"] else words
            elif sort.startswith(("stuck", "reset")):
                words = grades.numbers(words)
            yield from ((name, sort, it) for it in words or [""])


def long_blocks(plan):
    """The comments of registers with more lines than there should be."""
    blocks = re.split(r"^# ", plan, flags=re.M)[1:]
    return [it.split(":")[0] for it in blocks if it.count("\n") - 1 > MOST_LINES]


def blocks_of(plan):
    """The blocks of a plan: the path that each is of, or none of the walk, and its lines."""
    found = re.split(r"^(?=# )", plan if plan != NOTHING else "", flags=re.M)[1:]
    return [(None if it.startswith("# the memories: ") else it[2:].split(":")[0], it) for it in found]


def added_to(programs, description, script, bus):
    """The lines that a script needs, as standard output has them."""
    status, text, said = call(programs[0], description + b"---\n" + script.encode(), "add", *(("bus",) if bus else ()))
    if status or said:
        raise ValueError(f"add: status {status}: {text[:80]}{said[:80]}")
    return text


def missed_by(programs, description, script):
    """What a script doesn't find, as places and flaws, but for those of the session."""
    plan, grade, program = programs
    session = description + b"---\n" + script.encode()
    status, log, _ = call(program, session, "run")
    status_of_grade, graded, _ = call(grade, session, "run")
    if status > 1 or status_of_grade:
        raise ValueError(f"with lines added: {(log.splitlines() or [''])[-1][:100]}, {status_of_grade}")
    return {it for it in unfound_in(graded) if it[0] != "session"}


def adds(programs, description, plan, missed, scripts, chip):
    """What is wrong with the lines that are added to the plan, to a half of it and to other scripts, or none."""
    if added_to(programs, description, plan, chip.bus) != NOTHING:
        return "the plan needs lines"
    blocks = blocks_of(plan)
    left_out = {it for at, it in enumerate(dict.fromkeys(name for name, _ in blocks if name)) if at % 2 == 0}
    half = "".join(it for name, it in blocks if name is not None and name not in left_out)
    text = added_to(programs, description, half, chip.bus)
    added = {name for name, _ in blocks_of(text)}
    want = "".join(it for name, it in blocks if name in added)
    if text != (want or NOTHING) or not added <= left_out | {None}:
        return f"added to a half: {sorted(map(str, added))}"
    for script in (half, "", *scripts):
        text = text if script == half else added_to(programs, description, script, chip.bus)
        rest = missed_by(programs, description, script + text)
        lost = rest - missed_by(programs, description, script + plan)
        lost |= {it for it in rest - missed if not chip.keeps(it[0])}
        if lost:
            return f"missed with the lines added: {sorted(lost)[:3]}"
    return None


def certify(programs, description, bus, scripts):
    """What is wrong with the plan of a description, or none; and the sorts of flaws that aren't found with their number."""
    plan, grade, program = programs
    words = ("bus",) if bus else ()
    status, text, said = call(plan, description + b"---\n", *words)
    if status or said:
        return f"status {status}: {text[:80]}{said[:80]}", {}
    session = description + b"---\n" + text.encode()
    status, log, _ = call(program, session, "run")
    bad = [it for it in log.split("\n") if BAD.search(it)]
    if status or bad:
        return f"run ends with {status}: {(bad or log.splitlines())[-1][:100]}", {}
    described = tomllib.loads(description.decode())
    places = collections.Counter(it["item"] for it in described.get("place", []))
    if long_blocks(text) and max(places.values()) < 9 and len(reset_kinds(described)) < 3:
        return f"too many lines: {long_blocks(text)}", {}
    status, graded, _ = call(grade, session, "run")
    if status:
        return f"grade ends with {status}", {}
    chip, sorts = Chip(described, bus), collections.Counter()
    missed = set(unfound_in(graded))
    wrong = None if scripts is None else adds(programs, description, text, missed, scripts, chip)
    if wrong:
        return wrong, {}
    for name, sort, what in missed:
        if name != "session" and sort == "policy" and what == next(
                (it["policy"] for it in chip.items[name.rpartition(".")[0]]["field"] if it["name"] == name.rpartition(".")[2]), ""):
            continue
        sorts[sort.split()[0]] += 1
        if name == "session" or chip.is_shown(name, sort, what):
            return f"not found: {name} {sort} {what}", sorts
    return None, sorts


def refuses(programs, description):
    """What is wrong with the answer to a session that has no plan, or none."""
    status, text, said = call(programs[0], description)
    status_of_run, log, _ = call(programs[2], description, "run")
    want = log.rstrip("\n").split("\n")[-1]
    if status_of_run != 2 or want.startswith("refused line"):
        want = "refused session: the description has flaws of its own"
    return None if (status, text, said) == (2, want + "\n", "") else f"answers {status} {text[:100]}, not {want}"


def drawn(seed):
    """A description by chance: registers and memories at one to three roots, some of them in a child map, or sharing addresses."""
    chance, text = random.Random(seed), ""
    kinds = ("HARD", "SOFT") if chance.random() < 0.8 else ("HARD", "SOFT", "WARM")
    maps = [(f"m{at}", chance.choice((1, 2, 4, 8))) for at in range(chance.randint(1, 3))]
    for at, (name, width) in enumerate(maps):
        text += f'[[map]]\nname = "{name}"\nbytes = {width}\nendian = "{chance.choice(("little", "big", "little", "big-fifo"))}"\n'
        text += f'predict = "{chance.choice(("implicit", "explicit"))}"\n'
        if at and chance.random() < 0.3:
            text += f'parent = "{maps[0][0]}"\noffset = {0x100000 * at}\n'
    places = ""
    for reg in range(chance.randint(1, 5)):
        size, bit, fields = chance.choice((1, 2, 4, 8)), 0, []
        while bit < 8 * size and len(fields) < 6:
            bit += chance.choice((0, 0, 0, 1, 5))
            width = min(chance.choice((1, 1, 2, 3, 8, 32)), 8 * size - bit)
            if width < 1:
                break
            resets = ", ".join(f"{it} = {chance.randrange(min(1 << width, 1 << 62))}" for it in kinds if chance.random() < (0.8 if it == "HARD" else 0.3))
            field = f'name = "f{len(fields)}", lsb = {bit}, width = {width}, policy = "{chance.choice(POLICIES)}"'
            field += f", reset = {{{resets}}}" if resets else ""
            field += chance.choice(("", "", "", "", ", volatile = true", ", compare = false"))
            fields.append("{" + field + "}")
            bit += width
        backdoor = chance.choice(("", "", "backdoor = false\n"))
        text += f'[[reg]]\nname = "r{reg}"\nbytes = {size}\n{backdoor}field = [{", ".join(fields)}]\n'
        for name, _ in chance.sample(maps, chance.randint(0 if chance.random() < 0.1 else 1, len(maps))):
            rights = chance.choice(("rw", "rw", "rw", "ro", "wo"))
            places += f'[[place]]\nmap = "{name}"\nitem = "r{reg}"\noffset = {64 * (reg + 1)}\nrights = "{rights}"\n'
    if chance.random() < 0.3:
        # Two registers at one address, where its map is no FIFO.
        text += '[[reg]]\nname = "in"\nbytes = 1\nfield = [{name = "v", lsb = 0, width = 8, policy = "RO", reset = 5}]\n'
        text += '[[reg]]\nname = "out"\nbytes = 1\nfield = [{name = "v", lsb = 0, width = 8, policy = "RW"}]\n'
        text += '[[map]]\nname = "pair"\nbytes = 1\n'
        places += '[[place]]\nmap = "pair"\nitem = "in"\nrights = "ro"\n[[place]]\nmap = "pair"\nitem = "out"\nrights = "wo"\n'
    if chance.random() < 0.4:
        skip = chance.choice(("", 'skip = ["NO_MEM_WALK_TEST"]\n'))
        text += '[[map]]\nname = "wide"\nbytes = 4\n'
        text += f'[[mem]]\nname = "mem"\nbytes = {chance.choice((1, 2, 4, 8))}\nsize = {chance.choice((1, 2, 7))}\n{skip}'
        text += f'access = "{chance.choice(("rw", "rw", "ro"))}"\n'
        places += f'[[place]]\nmap = "wide"\nitem = "mem"\nrights = "{chance.choice(("rw", "rw", "ro", "wo"))}"\n'
    return (text + places).encode()


def tree():
    """Each description of the tree once: its name, a session that is refused or has flaws of its own, and its scripts."""
    files = glob.glob(f"{TOP}/examples/**/*.regrun", recursive=True) + glob.glob(f"{TOP}/crates/test_rows/data/rows/*.session")
    seen = {}
    for file in sorted(files):
        given = open(file, "rb").read()
        found = SEPARATOR.search(given)
        description = given[:found.end() - len(found[0].lstrip(b"\n"))] if found else given
        session = given if found is None else description + b"---\n"
        seen.setdefault(description, (os.path.basename(file), session, []))
        if found:
            seen[description][2].append(given[found.end():])
    return seen


def answers(program):
    """What is wrong with the answers to other words and to a full disk, or none."""
    for words in (("walk",), ("run",), ("bus", "bus"), ("bus", "add"), ("add", "add"), ("add", "bus", "bus"), ("",)):
        status, text, said = call(program, b"---\n", *words)
        if (status, text, said.count("\n")) != (6, "", 1) or not said.startswith("regrun-plan: "):
            return f"{words}: {status} {text}{said}"
    with open("/dev/full", "wb") as full:
        status = subprocess.run([program], input=b"[[reg]]\nname = 'a'\nbytes = 1\n---\n", stdout=full).returncode
    return None if status == 4 else f"a full disk: {status}"


def check(task):
    """One check by its name: what is wrong, and what was missed."""
    programs, name, kind, given, scripts = task
    try:
        if kind in ("both", "bus"):
            return name, *certify(programs, given, kind == "bus", scripts)
        return name, answers(programs[0]) if kind == "words" else refuses(programs, given), {}
    except Exception as error:
        return name, f"{type(error).__name__}: {error}", {}


def runs(programs, description, script):
    """Whether PROGRAM runs a script to its end. Where it refuses a line, so does `add`, in its words."""
    session = description + b"---\n" + script
    status, log, _ = call(programs[2], session, "run")
    if status == 2 and call(programs[0], session, "add")[:2] != (2, log.rstrip("\n").split("\n")[-1] + "\n"):
        raise ValueError(f"a script that is refused by: {log.rstrip().splitlines()[-1]}")
    return status != 2


def tasks(programs, count):
    """Each check: the programs, its name, its kind, a session or a description, and scripts."""
    ways = ("both", "bus")
    if count is None:
        yield programs, "words", "words", b"", []
        for description, (name, session, scripts) in tree().items():
            bare = FLAW.sub(b"", description)
            if call(programs[0], session)[0] == 2:
                yield programs, f"{name}, refused", "refused", session, []
            if call(programs[0], bare + b"---\n")[0] == 0:
                fit = [it.decode().rstrip("\n") + "\n" for it in scripts if runs(programs, bare, it)]
                yield from ((programs, f"{name}, {way}", way, bare, fit) for way in ways)
    for seed in DRAWN if count is None else range(count):
        yield from ((programs, f"drawn {seed}, {way}", way, drawn(seed), []) for way in ways)


def main():
    programs, count = tuple(map(os.path.abspath, sys.argv[1:4])), int(sys.argv[4]) if sys.argv[4:] else None
    every = list(tasks(programs, count))
    tried = every
    if os.environ.get("TRIAL"):
        tried = [(*it[:4], it[4] if at < MOST_ADDED_ON_TRIAL else None)
                 for at, it in enumerate(every[::1 + len(every) // MOST_ON_TRIAL])]
    failed, missed = 0, collections.Counter()
    with multiprocessing.Pool() as pool:
        for name, wrong, sorts in pool.imap(check, tried):
            missed.update(sorts)
            if wrong is not None:
                failed += 1
                print(f"{name}: {wrong}", flush=True)
    print("flaws that no plan finds: " + ", ".join(f"{it} {many}" for it, many in sorted(missed.items())))
    print(f"{len(tried) - failed} passed, {failed} failed, {len(every) - len(tried)} skipped")
    return int(failed > 0)


if __name__ == "__main__":
    sys.exit(main())
