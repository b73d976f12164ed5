#!/usr/bin/env python3
"""detection.py GRADE [memories]: which flaws each sequence finds for each access policy, as the tables of docs/DETECTION.md.
With the word `memories` the last table alone.

Each register of a chip has a field of one policy, one width and one reset value; a sequence over the chip is graded by the
built program regrun_grade, and what was found is told by policy and kind of flaw: always, never, or by the first condition
below that holds in exactly the tries that found it. Python 3.6 or later and its standard library.
"""
import collections, itertools, subprocess, sys

import grades

POLICIES = ("RO RW RC RS WRC WRS WC WS WSRC WCRS W1C W1S W1T W0C W0S W0T "
            "W1SRC W1CRS W0SRC W0CRS WO WOC WOS W1 WO1").split()

SEQUENCES = ("hw-reset", "bit-bash", "access", "shared", "mem-walk")

# The shapes of a register: its other fields, the lowest bit of the field under test, and the reset values by its width.
ALONE = ("", 0, {1: range(2), 2: range(4), 3: range(8), 8: (0x00, 0x5a, 0xc3, 0xff)})
BESIDE = (', {name = "low", lsb = 0, width = 1, policy = "RW"}, {name = "high", lsb = 7, width = 1, policy = "RW"}', 1,
          {1: range(2), 2: range(4), 3: range(8)})
ONE = ("", 0, {3: (5,)})

# One try: width and reset value of the field; the bit, or the other policy; whether the flaw was found.
Try = collections.namedtuple("Try", "width reset what found")

OF_BITS = [
    ("resets to 1", lambda it: it.reset >> it.what & 1),
    ("resets to 0", lambda it: not it.reset >> it.what & 1),
    ("2 bits", lambda it: it.width > 1),
    ("lowest", lambda it: it.what == 0),
    ("not lowest", lambda it: it.what > 0),
    ("written 1", lambda it: (it.reset ^ 1) >> it.what & 1),
    ("written 0", lambda it: not (it.reset ^ 1) >> it.what & 1),
]
OF_FIELDS = [
    ("not 0", lambda it: it.reset > 0),
    ("not ones", lambda it: it.reset + 1 < 1 << it.width),
    ("2 bits", lambda it: it.width > 1),
]
PLACE = '[[place]]\nmap = "{}"\nitem = "{}"\noffset = {}\n'
MEMORIES = ((1, 1), (1, 2), (1, 5), (2, 1), (2, 2), (2, 5))
VERDICTS = ("always", "sometimes", "never")
COLUMNS = ("stuck at 0", "stuck at 1", "wrong reset", "other policy", "deaf", "address", "item")


def description(shape, sequence, width, policies=POLICIES):
    """A chip with a register for each policy and reset value, with two places for shared access, else with one."""
    beside, lsb, resets = shape
    names, text = [], ""
    for policy, value in itertools.product(policies, resets[width]):
        names.append("{}_{}_{}".format(policy, width, value))
        text += '[[reg]]\nname = "{}"\nbytes = 1\n'.format(names[-1])
        text += 'field = [{{name = "v", lsb = {}, width = {}, policy = "{}", reset = {}}}{}]\n'.format(
            lsb, width, policy, value, beside)
    for name in ("one", "two") if sequence == "shared" else ("one",):
        text += '[[map]]\nname = "{}"\nbytes = 1\n'.format(name)
        text += "".join(PLACE.format(name, it, at) for at, it in enumerate(names))
    return text


def graded(program, text, sequence):
    """What is told of each place of a description where the sequence over it is graded."""
    given = "{}---\nseq {} *\n".format(text, sequence).encode()
    ran = subprocess.run([program, "run"], input=given, stdout=subprocess.PIPE, check=True)
    return grades.read(ran.stdout.decode("ascii"))[0]


def unfound(told, sort):
    """What the flaws of a sort are told by that aren't found, whether another script may find them or none can."""
    return [*told.missed.get(sort, ()), *told.hidden.get(sort, ())]


def bits_of(told, sort, width):
    """Each bit with whether its flaw of the sort is found."""
    others = grades.numbers(unfound(told, sort))
    return [(bit, bit not in others) for bit in range(width)]


def others_found(told, policy):
    """Each other policy with whether it is found."""
    missed = unfound(told, "policy")
    return [(it, it not in missed and "all" not in missed) for it in POLICIES if it != policy]


def counted(told, kind):
    """Whether each flaw of a kind is found, where they are told by no more than their number."""
    found, *others = told.counts.get(kind, (0,))
    return [(None, True)] * found + [(None, False)] * sum(others)


def tries(program, sequence, shape):
    """By policy and column, each flaw of a field or register that was tried."""
    found = collections.defaultdict(list)
    for width in shape[2]:
        for name, told in graded(program, description(shape, sequence, width), sequence).items():
            if name == "session" or name.endswith((".low", ".high")):
                continue
            policy, _, reset = name.partition(".")[0].split("_")
            if "." in name:
                each = {"stuck at 0": bits_of(told, "stuck at 0 bit", width), "stuck at 1": bits_of(told, "stuck at 1 bit", width),
                        "wrong reset": bits_of(told, "reset HARD bit", width), "other policy": others_found(told, policy)}
            else:
                each = {kind: counted(told, kind) for kind in ("deaf", "address")}
            for column, them in each.items():
                found[policy, column] += [Try(width, int(reset), what, it) for what, it in them]
    return found


def of_items(program, sequence, policy):
    """What of the first and the last item is found, over a register of one field; nothing where it has none."""
    places = graded(program, description(ONE, sequence, 3, (policy,)), sequence)
    return [Try(3, 5, *it) for it in counted(places["session"], "item")] if "session" in places else []


def condition(tried, atoms):
    """The first condition, or pair of them, that holds in exactly the tries that found the flaw."""
    wanted = [it.found for it in tried]
    held = [(text, [bool(test(it)) for it in tried]) for text, test in atoms]
    for text, holds in held:
        if holds == wanted:
            return text
    for (one, a), (two, b) in itertools.combinations(held, 2):
        if [x and y for x, y in zip(a, b)] == wanted:
            return "{} and {}".format(one, two)
        if [x or y for x, y in zip(a, b)] == wanted:
            return "{} or {}".format(one, two)
    return "{} of {} tries".format(sum(wanted), len(wanted))


def verdict(tried):
    return "always" if all(it.found for it in tried) else "sometimes" if any(it.found for it in tried) else "never"


def by_other(tried):
    """By verdict, the other policies that it is of, in the order of the table."""
    sorts = collections.defaultdict(list)
    for other in POLICIES:
        own = [it for it in tried if it.what == other]
        if own:
            sorts[verdict(own)].append(other)
    return sorts


def cell(column, tried):
    if not tried:
        return "no item"
    if column == "other policy":
        sorts = by_other(tried)
        return "{}/{}/{}".format(*(len(sorts[it]) for it in VERDICTS))
    if verdict(tried) != "sometimes":
        return verdict(tried)
    return condition(tried, OF_FIELDS if column in ("deaf", "address") else OF_BITS)


def rows_of(found, columns):
    """The cells of each policy."""
    return {policy: tuple(cell(it, found[policy, it]) for it in columns) for policy in POLICIES}


def table(head, rows):
    """A table of rows by policy; policies whose rows are alike stand together."""
    alike = collections.OrderedDict()
    for policy, cells in rows.items():
        alike.setdefault(cells, []).append(policy)
    print("| policy | " + " | ".join(head) + " |")
    print("|---" * (len(head) + 1) + "|")
    for cells, policies in alike.items():
        print("| {} | {} |".format(" ".join(policies), " | ".join(cells)))


def others_of(sorts):
    """The other policies of each verdict, by name where they are fewer than 20."""
    texts = {24: "all 24", **dict.fromkeys((20, 21, 22, 23), "the rest")}
    return tuple(texts.get(len(sorts[it]), " ".join(sorts[it])) for it in VERDICTS)


def tell(program, sequence):
    """The part of one sequence."""
    found = tries(program, sequence, ALONE)
    for policy in POLICIES:
        found[policy, "item"] = of_items(program, sequence, policy)
    rows = rows_of(found, COLUMNS)
    print("\n### {}\n".format(sequence))
    table(COLUMNS, rows)
    every = list(itertools.chain.from_iterable(found.values()))
    print("\n{} flaws tried, {} found.".format(len(every), sum(it.found for it in every)))
    beside = rows_of(tries(program, sequence, BESIDE), COLUMNS[:-1])
    other = {policy: cells for policy, cells in beside.items() if cells != rows[policy][:-1]}
    if other:
        print("\nWith an RW field on each side, where that is otherwise:\n")
        table(COLUMNS[:-1], other)
    sorts = {policy: by_other(found[policy, "other policy"]) for policy in POLICIES}
    pairs = [sum(len(it[sort]) for it in sorts.values()) for sort in VERDICTS]
    print("\nOf 600 pairs of a policy and another one, which the device has, "
          "{} are found always, {} sometimes, {} never.".format(*pairs))
    if pairs[2] < 600:
        print()
        table(("found always", "sometimes", "never"), {policy: others_of(it) for policy, it in sorts.items()})


def tell_memories(program):
    """What the sequences find of memories of one and two bytes with one, two and five locations."""
    text = "".join('[[mem]]\nname = "m{0}_{1}"\nbytes = {0}\nsize = {1}\n'.format(*it) for it in MEMORIES)
    text += '[[map]]\nname = "one"\nbytes = 1\n'
    text += "".join(PLACE.format("one", "m{}_{}".format(*it), 16 * at) for at, it in enumerate(MEMORIES))
    print("\n### Memories\n\n| sequence | deaf | address | item |\n|---|---|---|---|")
    for sequence in SEQUENCES:
        places = graded(program, text, sequence).values()
        cells = [[Try(0, 0, *it) for told in places for it in counted(told, kind)] for kind in COLUMNS[-3:]]
        print("| {} | {} |".format(sequence, " | ".join(verdict(it) if it else "no item" for it in cells)))


def main():
    if len(sys.argv) < 2 or sys.argv[2:] not in ([], ["memories"]):
        print("detection.py GRADE [memories]", file=sys.stderr)
        return 6
    for sequence in SEQUENCES if len(sys.argv) == 2 else ():
        tell(sys.argv[1], sequence)
    tell_memories(sys.argv[1])
    return 0


if __name__ == "__main__":
    sys.exit(main())
