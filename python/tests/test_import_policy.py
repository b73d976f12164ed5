"""The table of policies against what the two standards say that each word does to a bit."""

from __future__ import annotations

import itertools
from typing import Dict, Tuple

import pytest

import importing  # noqa: F401  (puts the package on the path)
from regrun.importer import numbers, policy
from regrun.importer.choice import address_range
from regrun.importer.names import choose, is_name

# IEEE 1800.2-2017, table of the field access policies: what a write of 0 and of 1 makes of a stored
# 0 and 1, and what a read makes of a stored 0 and 1. `-` leaves the bit, `w` takes the written one.
EFFECTS: Dict[str, Tuple[str, str, str]] = {
    # policy: (a written 0, a written 1, a read)
    "RO": ("-", "-", "-"), "RW": ("0", "1", "-"), "RC": ("-", "-", "0"), "RS": ("-", "-", "1"),
    "WRC": ("0", "1", "0"), "WRS": ("0", "1", "1"), "WC": ("0", "0", "-"), "WS": ("1", "1", "-"),
    "WSRC": ("1", "1", "0"), "WCRS": ("0", "0", "1"), "W1C": ("-", "0", "-"), "W1S": ("-", "1", "-"),
    "W1T": ("-", "t", "-"), "W0C": ("0", "-", "-"), "W0S": ("1", "-", "-"), "W0T": ("t", "-", "-"),
    "W1SRC": ("-", "1", "0"), "W1CRS": ("-", "0", "1"), "W0SRC": ("1", "-", "0"),
    "W0CRS": ("0", "-", "1"), "WO": ("0", "1", "-"), "WOC": ("0", "0", "-"), "WOS": ("1", "1", "-"),
    "W1": ("0", "1", "-"), "WO1": ("0", "1", "-"),
}  # fmt: skip
# IEEE 1685, modifiedWriteValue and readAction.
WRITES: Dict[str, Tuple[str, str]] = {
    "-": ("0", "1"), "oneToClear": ("-", "0"), "oneToSet": ("-", "1"), "oneToToggle": ("-", "t"),
    "zeroToClear": ("0", "-"), "zeroToSet": ("1", "-"), "zeroToToggle": ("t", "-"),
    "clear": ("0", "0"), "set": ("1", "1"),
}  # fmt: skip
READS = {"-": "-", "clear": "0", "set": "1"}
ONCE = {"W1", "WO1"}
HIDDEN = {"WO", "WOC", "WOS", "WO1"}


def test_table_is_whole() -> None:
    assert set(policy.TRIPLES) == set(EFFECTS) and len(EFFECTS) == 25
    accesses = policy.ACCESSES - {policy.NO_ACCESS}
    assert len(policy.CHOICES) == len(accesses) * len(policy.WRITES) * len(policy.READS)
    assert set(policy.WRITES) == set(WRITES) | {"modify"}


@pytest.mark.parametrize("access", sorted(policy.ACCESSES - {policy.NO_ACCESS}))
def test_policy_does_what_the_words_say(access: str) -> None:
    for write, read in itertools.product(sorted(policy.WRITES), sorted(policy.READS)):
        choice = policy.choose(access, write, read)
        writes = ("-", "-") if access == "read-only" and write == "-" else WRITES.get(write)
        fits = [
            name
            for name, effect in EFFECTS.items()
            if writes is not None
            and read in READS
            and effect == (*writes, READS[read])
            and (name in ONCE) == access.endswith("Once")
            and (name in HIDDEN) == (access in ("write-only", "writeOnce"))
        ]
        said = access != "read-only" or write == "-"
        assert (choice.exact, [choice.policy] if choice.exact else []) == (
            bool(fits and said),
            fits if said else [],
        )


WORDS = (
    ("R/W", "RW", False), ("rw", "RW", False), ("read-write", "RW", False), ("RO", "RO", False),
    ("read only", "RO", False), ("R", "RO", False), ("w", "WO", False), ("W1C", "W1C", False),
    ("R/W1C", "W1C", False), ("rc_w1", "W1C", False), ("RC_W0", "W0C", False), ("rc_r", "RC", False),
    ("R/W1S", "W1S", False), ("rt_w", "RO", False), ("t", "W1T", False), ("RO/V", "RO", True),
    ("read-writeOnce", "W1", False), ("writeOnce", "WO1", False), ("wtc", "W1C", False),
    ("clronrd", "RC", False), ("W0SRC", "W0SRC", False), ("RW/1C", "W1C", False),
)  # fmt: skip


@pytest.mark.parametrize("text, name, volatile", WORDS)
def test_words_of_manuals(text: str, name: str, volatile: bool) -> None:
    word = policy.of_word(text)
    assert word is not None and (word.triple, word.volatile) == (policy.TRIPLES[name], volatile)


def test_words_without_a_meaning() -> None:
    assert policy.of_word("wobbly") is None and policy.of_word("") is None
    reserved = policy.of_word("Reserved")
    assert reserved is not None and reserved.triple[0] == policy.NO_ACCESS
    words = [word for words in policy._WORDS.values() for word in words.split()]
    assert len(words) == len(set(words))


LONG = "a" * 32
NAMES = (
    (["CR", "SR"], ["CR", "SR"]),
    (["CR[1]", "CR_1"], ["CR_1_2", "CR_1"]),
    (["a-b", "a b", "a_b"], ["a_b_2", "a_b_3", "a_b"]),
    (["2ND", "", "[]"], ["_2ND", "_", "__2"]),
    ([LONG + "b", LONG + "c"], [LONG, "a" * 30 + "_2"]),
    (["X", "X", "X_2"], ["X", "X_3", "X_2"]),
    (["Größe", "éclat"], ["Gr_e", "_clat"]),
)


@pytest.mark.parametrize("wanted, given", NAMES)
def test_names(wanted: "list[str]", given: "list[str]") -> None:
    assert choose(wanted) == given
    assert all(is_name(name) for name in given) and len(set(given)) == len(given)


SVD_NUMBERS = (("0x1F", 31), ("+12", 12), ("#101", 5), ("0b11", 3), ("4k", 4096), ("2M", 2097152))
TABLE_NUMBERS = (
    ("0x1F", 31),
    ("1Fh", 31),
    ("16'h00_1f", 31),
    ("'b101", 5),
    ("12", 12),
    ("101b", 5),
    ("8'd9", 9),
)
EXPRESSIONS = (
    ("'h10", 16), ("32'hdead_beef", 0xDEADBEEF), ("8'sd7", 7), ("2**10", 1024), ("1+2*3", 7), ("(1+2)*3", 9),
    ("A*4-1", 27), ("A-1", 6), ("A+A-A", 7), ("$clog2(A)", 3), ("A > 3 ? 'hF : 0", 15), ("!A || 1", 1), ("~0 & 'hff", 255),
    ("7/2 - -7/2", 6), ("-7 % 4", -3), ("1 << 4 | 1", 17), ("4K", 4096), ("#ff", 255), ("$pow(2, A)", 128),
    ("0b10_1", 5), ("0B11 + 1", 4),
)  # fmt: skip


def test_numbers() -> None:
    for text, value in SVD_NUMBERS:
        assert numbers.svd(text) == value
    for text, value in TABLE_NUMBERS:
        assert numbers.table(text) == value
    for text, value in EXPRESSIONS:
        assert numbers.expression(text, {"A": 7}.__getitem__) == value
    assert numbers.table("1F", hexadecimal=True) == 31
    assert address_range("0x10-0x1f") == address_range("16..31") == (16, 31)


WRONG = (
    "",
    "x",
    "1 +",
    "1.5",
    "1/0",
    "1<<999",
    "9**9**9",
    "((((" * 20,
    "1" * 10_000,
    "$sin(1)",
    "1 2",
    "8'hzz",
    "0b2",
    "0b_",
)


@pytest.mark.parametrize("text", WRONG)
def test_wrong_expressions(text: str) -> None:
    with pytest.raises(numbers.NumberError):
        numbers.expression(text)
