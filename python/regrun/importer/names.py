"""The naming rule: how a name of a file becomes a name of a description.

1. Each run of characters that aren't an ASCII letter, digit or `_` becomes one `_`; one at the end
   goes away. So `CR[1]` becomes `CR_1`.
2. A name that begins with a digit, or has nothing left, gets a `_` in front.
3. A name has its first 32 characters.
4. A name that is taken gets `_2`, `_3`, ..; its front is cut so that it has 32 characters at most.

Names that are names already are given out first, so that a changed name never takes one of them.
"""

from __future__ import annotations

import re
from typing import Dict, Iterable, List, Sequence, Set

MOST = 32
_NAME = re.compile(r"[A-Za-z_][A-Za-z0-9_]{0,31}\Z")


def is_name(text: str) -> bool:
    """Whether a text is a name of a description as it is."""
    return _NAME.match(text) is not None


def as_name(text: str) -> str:
    """A text by the points 1 to 3 of the rule."""
    name = re.sub(r"[^A-Za-z0-9_]+", "_", text[:1000])
    if name != text:
        name = name.rstrip("_")
    if not name or name[0].isdigit():
        name = "_" + name
    return name[:MOST]


def choose(wanted: Sequence[str], taken: Iterable[str] = ()) -> List[str]:
    """One name for each wanted one, all different, and none of those that are taken."""
    used: Set[str] = set(taken)
    tried: Dict[str, int] = {}
    given: List[str] = [""] * len(wanted)
    for index, text in enumerate(wanted):
        if is_name(text) and text not in used:
            given[index] = text
            used.add(text)
    for index, text in enumerate(wanted):
        if not given[index]:
            given[index] = _free(as_name(text), used, tried)
            used.add(given[index])
    return given


def _free(name: str, used: Set[str], tried: Dict[str, int]) -> str:
    """The name, or by point 4 of the rule the first of its kind that isn't used."""
    number = tried.get(name, 1)
    candidate = name
    while candidate in used:
        number += 1
        tail = f"_{number}"
        candidate = name[: MOST - len(tail)] + tail
    tried[name] = number
    return candidate
