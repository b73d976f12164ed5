"""The one table from what a file says of a field's accesses to its access policy.

A file says who may access a field (`access`), what a write makes of it (`write`) and what a read
makes of it (`read`), in the words of IEEE 1685, which are those of CMSIS-SVD too. IEEE 1800.2 names
25 policies. A combination without a policy has a stand-in, marked by `~`: the field comes with that
policy and `compare = false`, so that no check names it, and the report tells the combination.
"""

from __future__ import annotations

from typing import Dict, NamedTuple, Optional, Tuple

# One row for each access and write action; then the policy for each read action.
TABLE = """
access          write         -      clear   set     modify
read-write      -             RW     WRC     WRS     ~RW
read-write      oneToClear    W1C    ~W1C    W1CRS   ~W1C
read-write      oneToSet      W1S    W1SRC   ~W1S    ~W1S
read-write      oneToToggle   W1T    ~W1T    ~W1T    ~W1T
read-write      zeroToClear   W0C    ~W0C    W0CRS   ~W0C
read-write      zeroToSet     W0S    W0SRC   ~W0S    ~W0S
read-write      zeroToToggle  W0T    ~W0T    ~W0T    ~W0T
read-write      clear         WC     ~WC     WCRS    ~WC
read-write      set           WS     WSRC    ~WS     ~WS
read-write      modify        ~RW    ~RW     ~RW     ~RW
read-only       -             RO     RC      RS      ~RO
read-only       oneToClear    ~RO    ~RC     ~RS     ~RO
read-only       oneToSet      ~RO    ~RC     ~RS     ~RO
read-only       oneToToggle   ~RO    ~RC     ~RS     ~RO
read-only       zeroToClear   ~RO    ~RC     ~RS     ~RO
read-only       zeroToSet     ~RO    ~RC     ~RS     ~RO
read-only       zeroToToggle  ~RO    ~RC     ~RS     ~RO
read-only       clear         ~RO    ~RC     ~RS     ~RO
read-only       set           ~RO    ~RC     ~RS     ~RO
read-only       modify        ~RO    ~RC     ~RS     ~RO
write-only      -             WO     ~WO     ~WO     ~WO
write-only      oneToClear    ~WO    ~WO     ~WO     ~WO
write-only      oneToSet      ~WO    ~WO     ~WO     ~WO
write-only      oneToToggle   ~WO    ~WO     ~WO     ~WO
write-only      zeroToClear   ~WO    ~WO     ~WO     ~WO
write-only      zeroToSet     ~WO    ~WO     ~WO     ~WO
write-only      zeroToToggle  ~WO    ~WO     ~WO     ~WO
write-only      clear         WOC    ~WOC    ~WOC    ~WOC
write-only      set           WOS    ~WOS    ~WOS    ~WOS
write-only      modify        ~WO    ~WO     ~WO     ~WO
read-writeOnce  -             W1     ~W1     ~W1     ~W1
read-writeOnce  oneToClear    ~W1    ~W1     ~W1     ~W1
read-writeOnce  oneToSet      ~W1    ~W1     ~W1     ~W1
read-writeOnce  oneToToggle   ~W1    ~W1     ~W1     ~W1
read-writeOnce  zeroToClear   ~W1    ~W1     ~W1     ~W1
read-writeOnce  zeroToSet     ~W1    ~W1     ~W1     ~W1
read-writeOnce  zeroToToggle  ~W1    ~W1     ~W1     ~W1
read-writeOnce  clear         ~W1    ~W1     ~W1     ~W1
read-writeOnce  set           ~W1    ~W1     ~W1     ~W1
read-writeOnce  modify        ~W1    ~W1     ~W1     ~W1
writeOnce       -             WO1    ~WO1    ~WO1    ~WO1
writeOnce       oneToClear    ~WO1   ~WO1    ~WO1    ~WO1
writeOnce       oneToSet      ~WO1   ~WO1    ~WO1    ~WO1
writeOnce       oneToToggle   ~WO1   ~WO1    ~WO1    ~WO1
writeOnce       zeroToClear   ~WO1   ~WO1    ~WO1    ~WO1
writeOnce       zeroToSet     ~WO1   ~WO1    ~WO1    ~WO1
writeOnce       zeroToToggle  ~WO1   ~WO1    ~WO1    ~WO1
writeOnce       clear         ~WO1   ~WO1    ~WO1    ~WO1
writeOnce       set           ~WO1   ~WO1    ~WO1    ~WO1
writeOnce       modify        ~WO1   ~WO1    ~WO1    ~WO1
"""

NO_ACCESS = "no-access"

Triple = Tuple[str, str, str]


class Choice(NamedTuple):
    """A policy, and whether it is exactly what the file says or a stand-in that isn't compared."""

    policy: str
    exact: bool


def _read_table() -> Dict[Triple, Choice]:
    lines = TABLE.split("\n")[1:-1]
    reads = lines[0].split()[2:]
    table: Dict[Triple, Choice] = {}
    for line in lines[1:]:
        access, write, *policies = line.split()
        for read, policy in zip(reads, policies):
            table[access, write, read] = Choice(policy.lstrip("~"), not policy.startswith("~"))
    return table


CHOICES = _read_table()
ACCESSES = frozenset(triple[0] for triple in CHOICES) | {NO_ACCESS}
WRITES = frozenset(triple[1] for triple in CHOICES)
READS = frozenset(triple[2] for triple in CHOICES)

# From each of the 25 policies back to the words.
TRIPLES: Dict[str, Triple] = {
    choice.policy: triple for triple, choice in CHOICES.items() if choice.exact
}

# A read of a field with such a policy answers 0, and no check compares it.
WRITE_ONLY = frozenset({"WO", "WOC", "WOS", "WO1"})
# A write of the field decides what it holds, whatever it held before.
DECIDED_BY_WRITE = frozenset({"RW", "WRC", "WRS", "WC", "WS", "WSRC", "WCRS"})


def choose(access: str, write: str, read: str) -> Choice:
    """The policy for words that are in ACCESSES without `no-access`, WRITES and READS."""
    return CHOICES[access, write, read]


def rights(access: str) -> str:
    """What a bus may do with a register whose own access is this."""
    if access == "read-only":
        return "ro"
    return "wo" if access in ("write-only", "writeOnce") else "rw"


# Words of manuals and spreadsheets, without blanks and the signs / _ - . ( ), in capitals. What
# IEEE 1800.2 names a policy has that meaning; RS of STM32 manuals (a write of 1 sets) is W1S there.
_RESERVED_WORDS = ("NOACCESS", "NA", "RESERVED", "RES", "RSVD", "RSV", "NONE", "X")
_WORDS: Dict[str, str] = {
    "RW": "RW READWRITE WR RDWR RWV RWL RWS RWP RWSTICKY",
    "RO": "RO R READ READONLY RD ROV ROZ ROS RZ RAZ RAZWI ROR RTW",
    "WO": "WO W WRITE WRITEONLY WV WOV WRTONLY",
    "W1": "W1 RWO RWONCE READWRITEONCE W1RW RW1O RWONE RWRITEONCE",
    "WO1": "WO1 WRITEONCE WONCE",
    "W1C": "W1C RW1C RWW1C RCW1 RW1TC W1TC W1TOCL W1TOCLR RW1TOCL RW1TOCLR RWC1 RWC RW1CV RW1CS WTC RC1 R1C",
    "W0C": "W0C RW0C RCW0 RW0TC W0TC RWC0 RC0 R0C",
    "W1S": "W1S RW1S RSW1 W1TS RW1TS W1TOSET RW1TOSET RWS1 RS1 RW1SV",
    "W0S": "W0S RW0S RSW0 W0TS RW0TS RWS0 RS0",
    "W1T": "W1T RW1T T RT1 TOGGLE W1TT RW1TT",
    "W0T": "W0T RW0T",
    "RC": "RC RCR CLRONRD ROC READCLEAR COR",
    "RS": "RS READSET SETONRD",
    "WC": "WC CLRONWR WRITECLEAR RWCLR",
    "WS": "WS SETONWR WRITESET",
    "WRC": "WRC RWRC RWCOR",
    "WRS": "WRS RWRS",
    "WOC": "WOC WOCLR",
    "WOS": "WOS WOSET",
}
_MEANINGS: Dict[str, str] = {
    word: policy for policy, words in _WORDS.items() for word in words.split()
}
_VOLATILE_WORDS = frozenset({"RWV", "ROV", "RW1CV", "RW1SV", "WV", "WOV"})
_DOUBTS: Dict[str, str] = {
    "RS": "RS is taken as IEEE 1800.2 has it, a read sets; where a write of 1 sets, write W1S",
    "RWC": "R/WC is taken as W1C, a write of 1 clears; where any write clears, write WC",
    "RWS": "RWS is taken as RW that a warm reset leaves; where a write of 1 sets, write W1S",
    "RWL": "a lock is no policy: taken as RW",
    "RWP": "a privilege is no policy: taken as RW",
    "RTW": "what a write triggers is no policy: taken as RO",
    "ROZ": "taken as RO",
    "W1": "W1 is taken as IEEE 1800.2 has it, the first write counts",
}


class Word(NamedTuple):
    """The meaning of an access word; `doubt` is a line for the report, or empty."""

    triple: Triple
    volatile: bool
    doubt: str


def of_word(text: str) -> Optional[Word]:
    """The meaning of an access word of a manual, or None where it is unknown."""
    key = "".join(letter for letter in text.upper() if letter not in " \t/_-.()\u00a0")
    if key in _RESERVED_WORDS:
        return Word((NO_ACCESS, "-", "-"), False, "")
    policy = key if key in TRIPLES else _MEANINGS.get(key)
    if policy is None:
        return None
    return Word(TRIPLES[policy], key in _VOLATILE_WORDS, _DOUBTS.get(key, ""))
