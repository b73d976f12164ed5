#!/usr/bin/env python3
"""grade.py PROGRAM run|missed|hidden < SESSION: which single flaws of the device the session finds.

Runs the session (a description without flaws, `---`, a script) on the program with each single flaw of these:

    stuck    each bit of each field, at 0 and at 1
    reset    each value of a reset of a field that is wrong in one bit, for each kind that the field has a value for
    policy   each field with each other access policy (no two of the 25 behave alike)
    deaf     each register and memory
    address  each address of a word, as an error range; of a memory those of its first and its last location
    item     the first and the last bus item of the session

A flaw is found where some event of the session with it has a difference or a bus error that the same event without it
hasn't. Of the others those are hidden which no script finds, as `is_hidden` of rl_grade says: they change no event of any
script, or only what no check compares. The rest is missed. `run` prints a line for each register, field and memory, and one
for the items, with the counts of each and with the flaws that aren't found, and a last line with the totals; `missed` and
`hidden` print those as rows of a description.

Flaws of different registers don't meet: neither changes what the device or the model has of the other's register, or how
many events there are. So one run has up to 256 flaws, one a register, and each is found by the events of its own register;
those of memories, of items and of an address that two items share are run alone, and with ALONE=1 in the environment all.

The status is 0 where the session was graded. One that the program refuses is refused here, with its line and status, and
one that has flaws of its own with status 2. JOBS in the environment is the number of processes; absent, one a processor.
Python 3.11 or later and its standard library. It measures: it proves nothing.
"""
import collections, itertools, multiprocessing, os, re, subprocess, sys, tomllib

POLICIES = ("RO RW RC RS WRC WRS WC WS WSRC WCRS W1C W1S W1T W0C W0S W0T "
            "W1SRC W1CRS W0SRC W0CRS WO WOC WOS W1 WO1").split()
KINDS = ("stuck", "reset", "policy", "deaf", "address", "item")
UNFOUND = ("missed", "hidden")
CLEARED = ("RC", "WRC", "WSRC", "W1SRC", "W0SRC")
RAISED = ("RS", "WRS", "WCRS", "W1CRS", "W0CRS")
WRITE_ONLY = ("WO", "WOC", "WOS", "WO1")
WRITE_ONCE = ("W1", "WO1")
WRITTEN = {
    "RW": lambda c, w: w, "WRC": lambda c, w: w, "WRS": lambda c, w: w, "WO": lambda c, w: w,
    "WC": lambda c, w: 0, "WCRS": lambda c, w: 0, "WOC": lambda c, w: 0,
    "WS": lambda c, w: 1, "WSRC": lambda c, w: 1, "WOS": lambda c, w: 1,
    "W1C": lambda c, w: c & ~w, "W1CRS": lambda c, w: c & ~w, "W0C": lambda c, w: c & w, "W0CRS": lambda c, w: c & w,
    "W1S": lambda c, w: c | w, "W1SRC": lambda c, w: c | w, "W0S": lambda c, w: c | 1 - w, "W0SRC": lambda c, w: c | 1 - w,
    "W1T": lambda c, w: c ^ w, "W0T": lambda c, w: c ^ 1 - w,
}
SEPARATOR = re.compile(rb"(?:\A|\n)---\r?(?:\n|\Z)")
FOUND = re.compile(r"\S+ (\S+).*?: (?:ok \S+(?: mirror \S+)? differ(.*)|bus error at word .*)")
ITEM = re.compile(r"  (\w+) [rw] (0x[0-9a-f]+) ")

MOST_FLAWS, MOST_BYTES = 256, 1048576

# A flaw: its kind above, the register or memory that it is of (or none), where its line tells it (a path, or `session`), its
# words beside the kind, and the keys and values of its row.
Flaw = collections.namedtuple("Flaw", "kind item where told row")

# How a register is reached; and a bit of its field, without a flaw and with it: the policy in both, the value that it is
# stuck at or none, and whether no write reaches it.
Ways = collections.namedtuple("Ways", "written read backdoor")
Bit = collections.namedtuple("Bit", "own other stuck deaf")


class Refused(Exception):
    """A session that isn't graded: the line that says why, and the status."""

    def __init__(self, line, status):
        super().__init__(line, status)
        self.line, self.status = line, status


class Session:
    """A description and the bytes from the separator on, with the program that runs them."""

    def __init__(self, program, given):
        found = SEPARATOR.search(given)
        cut = found.end() - len(found[0].lstrip(b"\n")) if found else len(given)
        self.program, self.description, self.script = os.path.abspath(program), given[:cut], given[cut:]

    def run(self, rows="", script=None):
        """The status and the log with further rows, and with another script where one is given."""
        given = self.description + rows.encode() + (self.script if script is None else b"---\n" + script.encode())
        ran = subprocess.run([self.program, "run"], input=given, stdout=subprocess.PIPE, close_fds=False)
        return ran.returncode, ran.stdout.decode("ascii", "replace")


def number(value):
    return value if isinstance(value, int) else int(value, 16 if value[:2] in ("0x", "0X") else 10)


def path(row):
    return "{}.{}".format(row["of"], row["name"]) if "of" in row else row["name"]


def as_row(flaw):
    """The flaw as a row of a description."""
    value = lambda it: it if isinstance(it, int) else '"{}"'.format(it)
    return "[[flaw]]\n" + "".join("{} = {}\n".format(key, value(it)) for key, it in flaw.row.items())


def reset_kinds(chip):
    """The kinds of reset in the order in which a chip has them: HARD, SOFT, and the others as fields first have them, those of
    a field by name."""
    fields = (field for register in chip.get("reg", []) for field in register.get("field", []))
    return list(dict.fromkeys(itertools.chain(("HARD", "SOFT"), *(sorted(resets_of(it)) for it in fields))))


def resets_of(field):
    """The value of a field for each kind of reset that it has one for."""
    resets = field.get("reset", {})
    return resets if isinstance(resets, dict) else {"HARD": resets}


def field_flaws(register, field, kinds=("HARD", "SOFT")):
    """The flaws of one field, of a chip with these kinds of reset."""
    where, width = "{}.{}".format(register, field["name"]), number(field["width"])
    for value in (0, 1):
        for bit in range(width):
            yield Flaw("stuck", register, where, ("at {} bit".format(value), bit), {"kind": "stuck", "field": where, "bit": bit, "value": value})
    resets = resets_of(field)
    for kind in (it for it in kinds if it in resets):
        for bit in range(width):
            wrong = {"kind": "reset", "field": where, "on": kind, "value": hex(number(resets[kind]) ^ 1 << bit)}
            yield Flaw("reset", register, where, ("{} bit".format(kind), bit), wrong)
    for policy in POLICIES:
        if policy != field["policy"]:
            yield Flaw("policy", register, where, ("", policy), {"kind": "policy", "field": where, "policy": policy})


def item_flaws(item, addresses):
    """The flaws of a register or memory as a whole."""
    yield Flaw("deaf", item, item, ("", ""), {"kind": "deaf", "item": item})
    for root, address in addresses:
        wrong = {"kind": "error-range", "map": root, "from": address, "to": address}
        yield Flaw("address", item, item, (root, address), wrong)


def addresses(session, chip):
    """For each item the root map and the address of each of its words, as the items of a log tell them, by the order of the
    maps and by address; and for each such address the item of the place that comes first."""
    sizes = {path(it): number(it["size"]) for it in chip.get("mem", [])}
    script, asked, found, owners = [], [], collections.defaultdict(dict), {}
    for place in chip.get("place", []):
        item, writes = place["item"], place.get("rights", "rw") == "wo"
        for at in sorted({0, sizes.get(item, 1) - 1}):
            command = ("write {}" if writes else "read {}").format(item)
            if item in sizes:
                command = "mem-{} {}".format(command, at)
            script.append("{}{} @{}".format(command, " 0" * writes, place["map"]))
            asked.append(item)
    event = -1
    for line in session.run(script="\n".join(script))[1].split("\n"):
        word = ITEM.match(line)
        if word:
            found[asked[event]][word.groups()] = None
            owners.setdefault(word.groups(), asked[event])
        else:
            event += 1
    order = {it["name"]: at for at, it in enumerate(chip.get("map", []))}
    found = {item: sorted(own, key=lambda it: (order[it[0]], int(it[1], 16))) for item, own in found.items()}
    return collections.defaultdict(list, found), owners


def all_flaws(chip, words, owners, items):
    """Each single flaw of a description with these words, and of a session with so many bus items; an address that two
    items share is that of the one whose place comes first."""
    kinds = reset_kinds(chip)
    for row in chip.get("reg", []) + chip.get("mem", []):
        yield from item_flaws(path(row), [it for it in words[path(row)] if owners[it] == path(row)])
        for field in row.get("field", []):
            yield from field_flaws(path(row), field, kinds)
    for nth in sorted({1, items} if items else ()):
        yield Flaw("item", None, "session", ("", nth), {"kind": "error-nth", "nth": nth})


def written(policy, old, new, spent):
    """What a write leaves of a bit; a write-once policy takes the first alone."""
    if policy in WRITE_ONCE:
        return old if spent else new
    return WRITTEN.get(policy, lambda c, w: c)(old, new)


def left(policy, old):
    """What a read leaves of a bit."""
    return 0 if policy in CLEARED else 1 if policy in RAISED else old


def is_alike(ways, bit):
    """Whether the bit is the same with the flaw, whatever is written and read."""
    writes = (bit.own in WRITE_ONCE) == (bit.other in WRITE_ONCE and not bit.deaf) and all(
        written(bit.own, old, new, spent) == (old if bit.deaf else written(bit.other, old, new, spent))
        for old, new, spent in itertools.product((0, 1), repeat=3))
    reads = (bit.own in WRITE_ONLY) == (bit.other in WRITE_ONLY) and all(left(bit.own, it) == left(bit.other, it) for it in (0, 1))
    return bit.stuck is None and (writes or not ways.written) and (reads or not ways.read)


def is_unseen(ways, bit):
    """Whether nothing looks at the bit."""
    return not ways.backdoor and (not ways.read or bit.own in WRITE_ONLY and bit.other in WRITE_ONLY)


def is_fixed(ways, bit, first):
    """Whether the bit keeps its first value, with the flaw and without it."""
    kept = lambda policy: all(written(policy, first, new, spent) == first for new, spent in itertools.product((0, 1), repeat=2))
    writes = kept(bit.own) and (bit.deaf or kept(bit.other))
    reads = left(bit.own, first) == left(bit.other, first) == first and (bit.own in WRITE_ONLY) == (bit.other in WRITE_ONLY)
    return not ways.backdoor and bit.stuck in (None, first) and (writes or not ways.written) and (reads or not ways.read)


def is_compared(field):
    """Whether a check compares the field."""
    return field.get("compare", not field.get("volatile", False)) and field["policy"] not in WRITE_ONLY


class Hidden:
    """Which flaws of a chip no script finds, by the definitions of Hidden.antt and Unchecked.antt in crates/rl_grade/specs."""

    def __init__(self, chip):
        self.items = {path(it): it for it in chip.get("reg", []) + chip.get("mem", [])}
        self.mems = {path(it) for it in chip.get("mem", [])}
        self.reached = {(it["item"], right) for it in chip.get("place", []) for right in it.get("rights", "rw").replace("o", "")}

    def ways(self, item):
        return Ways((item, "w") in self.reached, (item, "r") in self.reached, self.items[item].get("backdoor", True))

    def is_field_hidden(self, item, field, bit, at=None):
        """Whether bit `at` of a field, or each of them, is hidden."""
        ways = self.ways(item)
        resets = {kind: number(value) for kind, value in resets_of(field).items()}
        return all(is_alike(ways, bit) or is_unseen(ways, bit) or (
            not field.get("volatile", False) and is_fixed(ways, bit, resets.get("HARD", 0) >> it & 1)
            and all(value >> it & 1 == resets.get("HARD", 0) >> it & 1 for value in resets.values()))
            for it in (range(number(field["width"])) if at is None else [at]))

    def is_unchecked(self, flaw):
        """Whether no check compares a field of the register that is volatile, or that the flaw could change."""
        return not any(is_compared(it) and (
            flaw.kind == "deaf" or it.get("volatile", False) or flaw.where == "{}.{}".format(flaw.item, it["name"]))
            for it in self.items[flaw.item].get("field", []))

    def has(self, flaw):
        if flaw.kind in ("address", "item"):
            return False
        return flaw.item not in self.mems and self.is_unchecked(flaw) or self.is_silent(flaw)

    def is_silent(self, flaw):
        """Whether it changes no event of any script."""
        fields = self.items[flaw.item].get("field", [])
        if flaw.kind == "deaf":
            if flaw.item in self.mems:
                return self.items[flaw.item].get("access", "rw") != "rw" or (flaw.item, "w") not in self.reached
            return all(self.is_field_hidden(flaw.item, it, Bit(it["policy"], it["policy"], None, True)) for it in fields)
        field = next(it for it in fields if flaw.where == "{}.{}".format(flaw.item, it["name"]))
        bit = Bit(field["policy"], flaw.row.get("policy", field["policy"]), flaw.row["value"] if flaw.kind == "stuck" else None, False)
        if flaw.kind == "reset":
            return is_unseen(self.ways(flaw.item), bit)
        return self.is_field_hidden(flaw.item, field, bit, flaw.row.get("bit"))


def findings(log):
    """By the number of the line, items not counted: the path that it is on, and what it finds: fields that differ, `differ`
    of a memory, or a bus error."""
    found, lines = {}, (it for it in log.split("\n") if not it.startswith("  "))
    for at, line in enumerate(lines):
        told = FOUND.match(line) if " differ" in line or " error at " in line else None
        if told:
            found[at] = (told[1], {"bus error"} if told[2] is None else set(told[2].split() or ["differ"]))
    return found


class Grading:
    """A session without flaws, and what it finds without one. It has no bus error then, so that a line of the session with
    a flaw is the one of the same number without it, up to the first bus error of a burst at least."""

    def __init__(self, session):
        self.session = session
        status, log = session.run()
        if status not in (0, 1):
            raise Refused((log.rstrip("\n").split("\n") or [""])[-1], status)
        try:
            self.chip = tomllib.loads(session.description.decode())
        except tomllib.TOMLDecodeError as told:
            raise Refused("refused session: Python doesn't read the description: {}".format(told), 2)
        if "flaw" in self.chip:
            raise Refused("refused session: the description has flaws of its own", 2)
        self.words, owners = addresses(session, self.chip)
        self.flaws = list(all_flaws(self.chip, self.words, owners, sum(it.startswith("  ") for it in log.split("\n"))))
        self.before = findings(log)
        self.registers = {path(it): path(it) for it in self.chip.get("reg", [])}
        for it in self.chip.get("reg", []):
            self.registers.update(("{}.{}".format(path(it), field["name"]), path(it)) for field in it.get("field", []))

    def batches(self):
        """The numbers of the flaws, cut into those that are run at once."""
        items = collections.Counter(word for words in self.words.values() for word in words)
        turns, turn, room = collections.defaultdict(list), collections.Counter(), MOST_BYTES - len(self.session.description)
        for at, flaw in enumerate(self.flaws):
            shared = flaw.kind == "address" and items[flaw.told] > 1
            if os.environ.get("ALONE") or flaw.item not in self.registers or shared:
                yield [at]
            else:
                turns[turn[flaw.item]].append(at)
                turn[flaw.item] += 1
        for them in turns.values():
            most = max(1, min(MOST_FLAWS, room // max(len(as_row(self.flaws[at])) for at in them)))
            for first in range(0, len(them), most):
                yield them[first:first + most]

    def finds(self, batch):
        """Whether the session finds each of these flaws."""
        flaws = [self.flaws[at] for at in batch]
        status, log = self.session.run("".join(map(as_row, flaws)))
        if status not in (0, 1):
            raise Refused("with this flaw the program ends with status {}:\n{}".format(status, as_row(flaws[0])), status)
        new = [on for at, (on, what) in findings(log).items() if what - self.before.get(at, ("", set()))[1]]
        if len(flaws) == 1:
            return [bool(new)]
        registers = {self.registers[on] for on in new}
        return [it.item in registers for it in flaws]


grading = None


def begin(session):
    """What each process does first: all number the flaws alike."""
    global grading
    grading = Grading(session)


def finds(batch):
    return batch, grading.finds(batch)


def grade(session):
    """The flaws of the session, each with `found`, `missed` or `hidden`."""
    begin(session)
    found, jobs = {}, int(os.environ.get("JOBS") or multiprocessing.cpu_count())
    with multiprocessing.Pool(jobs, begin, (session,)) as pool:
        for batch, each in pool.imap_unordered(finds, grading.batches()):
            found.update(zip(batch, each))
            if sys.stderr.isatty():
                sys.stderr.write("\r{} of {} flaws".format(len(found), len(grading.flaws)))
    if sys.stderr.isatty():
        sys.stderr.write("\r" + " " * 40 + "\r")
    hidden = Hidden(grading.chip)
    return [(flaw, "found" if found[at] else "hidden" if hidden.has(flaw) else "missed") for at, flaw in enumerate(grading.flaws)]


def ranges(numbers):
    """Ascending numbers, with `3-6` for those that follow one another."""
    runs = []
    for it in numbers:
        if runs and it == runs[-1][1] + 1:
            runs[-1][1] = it
        else:
            runs.append([it, it])
    return " ".join(str(a) if a == b else "{}-{}".format(a, b) for a, b in runs)


def words_of(them):
    """Bits or items by number, or policies by name."""
    if isinstance(them[0], int):
        return ranges(them)
    return "all 24" if len(them) == len(POLICIES) - 1 and set(them) <= set(POLICIES) else " ".join(them)


def text_of(flaws):
    """Flaws in words, those of one sort together."""
    sorts = collections.OrderedDict()
    for it in flaws:
        sorts.setdefault((it.kind, it.told[0]), []).append(it.told[1])
    return ", ".join(" ".join(" ".join([*sort, words_of(them)]).split()) for sort, them in sorts.items())


def told_count(number, word, before):
    """A count and its word, where it isn't 0."""
    return "{}{} {}".format(before, number, word) if number else ""


def line_of(where, graded):
    """The line of a register, field, memory, or of the items: counts by kind, and what wasn't found."""
    counts = []
    for kind in KINDS:
        found = collections.Counter(verdict for flaw, verdict in graded if flaw.kind == kind)
        if found:
            counts.append("{} {} found {} missed".format(kind, found["found"], found["missed"]) + told_count(found["hidden"], "hidden", " "))
    told = ((it, text_of([flaw for flaw, verdict in graded if verdict == it])) for it in UNFOUND)
    return "{}: {}{}".format(where, ", ".join(counts), "".join("; {}: {}".format(*it) for it in told if it[1]))


def share(found, flaws, behind):
    """The share that was found, rounded down; none where there is no flaw."""
    tenths = 1000 * found // flaws if flaws else 0
    return ", {}.{} % {}".format(tenths // 10, tenths % 10, behind) if flaws else ""


def print_run(graded):
    by_place = collections.OrderedDict()
    for flaw, verdict in graded:
        by_place.setdefault(flaw.where, []).append((flaw, verdict))
    for where, each in by_place.items():
        print(line_of(where, each))
    count = collections.Counter(it for _, it in graded)
    findable = len(graded) - count["hidden"]
    print("end: {} flaws, {} found, {} missed".format(len(graded), count["found"], count["missed"]) + told_count(count["hidden"], "hidden", ", ")
          + share(count["found"], len(graded), "found")
          + (share(count["found"], findable, "of those that can be found") if findable < len(graded) else ""))


def print_rows(graded, verdict):
    for flaw, it in graded:
        if it == verdict:
            print(as_row(flaw), end="")


def main():
    if len(sys.argv) != 3 or sys.argv[2] not in ("run", *UNFOUND):
        print("grade.py PROGRAM run|missed|hidden < SESSION", file=sys.stderr)
        return 6
    if not os.access(sys.argv[1], os.X_OK):
        print("grade.py: there is no program {}".format(sys.argv[1]), file=sys.stderr)
        return 6
    try:
        graded = grade(Session(sys.argv[1], sys.stdin.buffer.read()))
    except Refused as told:
        print(told.line)
        return told.status
    if sys.argv[2] == "run":
        print_run(graded)
    else:
        print_rows(graded, sys.argv[2])
    return 0


if __name__ == "__main__":
    sys.exit(main())
