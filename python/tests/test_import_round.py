"""A random chip, written as CMSIS-SVD and as IP-XACT, is read back as it was."""

from __future__ import annotations

import os
import random
import tempfile
from dataclasses import dataclass, field
from pathlib import Path
from typing import Dict, List
from xml.sax.saxutils import escape

import pytest

from importing import ask, lines_of, regrun

pytest.importorskip("defusedxml", reason="python3-defusedxml isn't installed")
os.environ.setdefault("HYPOTHESIS_STORAGE_DIRECTORY", f"{tempfile.gettempdir()}/hypothesis")
hypothesis = pytest.importorskip("hypothesis", reason="python3-hypothesis isn't installed")
from hypothesis import HealthCheck, given, settings  # noqa: E402
from hypothesis import strategies as st  # noqa: E402

from regrun.importer import import_file, policy  # noqa: E402

SPACES = {
    "2009": "http://www.spiritconsortium.org/XMLSchema/SPIRIT/1685-2009",
    "2014": "http://www.accellera.org/XMLSchema/IPXACT/1685-2014",
    "2022": "http://www.accellera.org/XMLSchema/IPXACT/1685-2022",
}
ACCESS = {"rw": "read-write", "ro": "read-only", "wo": "write-only"}
KINDS = ("HARD", "SOFT", "COLD")


@dataclass
class Field:
    name: str
    lsb: int
    width: int
    policy: str
    volatile: bool
    resets: Dict[str, int]
    text: str


@dataclass
class Register:
    name: str
    offset: int
    bytes: int
    rights: str
    fields: List[Field]
    text: str


@dataclass
class Block:
    name: str
    base: int
    registers: List[Register] = field(default_factory=list)


names = st.from_regex(r"[A-Za-z_][A-Za-z0-9_]{0,31}", fullmatch=True)
texts = st.text(
    st.characters(blacklist_categories=("Cs", "Cc"), blacklist_characters="\ufffe\uffff"),
    max_size=40,
)


@st.composite
def fields(draw: st.DrawFn, bits: int) -> List[Field]:
    cuts = sorted(draw(st.sets(st.integers(0, bits), min_size=2, max_size=7)))
    spans = [(low, high - low) for low, high in zip(cuts, cuts[1:])]
    kept = [span for span in spans if draw(st.booleans())] or spans[:1]
    given_names = draw(st.lists(names, min_size=len(kept), max_size=len(kept), unique=True))
    result = []
    for name, (lsb, width) in zip(given_names, kept):
        resets = draw(
            st.dictionaries(st.sampled_from(KINDS), st.integers(0, 2**width - 1), max_size=3)
        )
        kind = draw(st.sampled_from(sorted(policy.TRIPLES)))
        result.append(Field(name, lsb, width, kind, draw(st.booleans()), resets, draw(texts)))
    return result


@st.composite
def chips(draw: st.DrawFn) -> List[Block]:
    blocks = []
    block_names = draw(st.lists(names, min_size=1, max_size=3, unique=True))
    bases = draw(
        st.lists(
            st.integers(0, 2**40),
            min_size=len(block_names),
            max_size=len(block_names),
            unique=True,
        )
    )
    for name, base in zip(block_names, sorted(bases)):
        block = Block(name, base * 0x1000)
        for at, register in enumerate(draw(st.lists(names, min_size=1, max_size=4, unique=True))):
            bytes_ = draw(st.sampled_from((1, 2, 4, 8)))
            rights = draw(st.sampled_from(("rw", "rw", "ro", "wo")))
            of = draw(fields(8 * bytes_))
            block.registers.append(
                Register(register, 8 * at + 0x40 * (at % 2), bytes_, rights, of, draw(texts))
            )
        block.registers.sort(key=lambda one: one.offset)
        blocks.append(block)
    return blocks


def wanted(blocks: List[Block], hidden: str, kinds: bool) -> List[str]:
    """The lines of the description; `hidden` is what the format can't say of a field."""
    lines = [f"block {block.name}" for block in blocks]
    for block in blocks:
        for one in block.registers:
            skip = False
            of = []
            for field_ in one.fields:
                resets = {
                    kind: value for kind, value in field_.resets.items() if kinds or kind == "HARD"
                }
                volatile = field_.volatile and hidden != "volatile"
                words = [
                    field_.name,
                    f"{field_.lsb + field_.width - 1}:{field_.lsb}",
                    field_.policy,
                ]
                words += ["volatile"] if volatile else []
                if not volatile and "HARD" not in resets and field_.policy not in policy.WRITE_ONLY:
                    decided = field_.policy in policy.DECIDED_BY_WRITE
                    skip = skip or decided
                    words += [] if decided else ["uncompared"]
                words += [f"{kind}={value:#x}" for kind, value in sorted(resets.items())]
                of.append("  " + " ".join(words))
            head = f"reg {block.name}.{one.name} bytes={one.bytes} {one.offset:#x} {one.rights}"
            lines += [head + (" skip NO_REG_HW_RESET_TEST" if skip else ""), *of]
    return lines


def without_maps(text: str) -> List[str]:
    """The lines without the maps, whose names are the importer's own."""
    lines = []
    for line in lines_of(text):
        if line.startswith("reg "):
            words = line.split(" ")
            words[3:5] = [words[4].rpartition("+")[2]]
            line = " ".join(words)
        if not line.startswith("map "):
            lines.append(line)
    return lines


def addresses(text: str) -> Dict[str, int]:
    """The address of each register."""
    maps: Dict[str, int] = {}
    result: Dict[str, int] = {}
    for line in lines_of(text):
        words = line.split(" ")
        if words[0] == "map":
            keys = dict(word.split("=") for word in words[2:])
            begin = int(keys.get("base", "0"), 16) + int(keys.get("offset", "0"), 16)
            maps[words[1]] = begin + maps.get(keys.get("parent", ""), 0)
        elif words[0] == "reg":
            name, _, offset = words[4].rpartition("+")
            result[words[1]] = maps[name] + int(offset, 16)
    return result


def svd(blocks: List[Block]) -> str:
    parts = ["<device><name>C</name><width>64</width><peripherals>"]
    for block in blocks:
        parts.append(
            f"<peripheral><name>{block.name}</name><baseAddress>{block.base:#x}</baseAddress><registers>"
        )
        for one in block.registers:
            value = sum(f.resets.get("HARD", 0) << f.lsb for f in one.fields)
            mask = sum(((1 << f.width) - 1) << f.lsb for f in one.fields if "HARD" in f.resets)
            parts.append(
                f"<register><name>{one.name}</name><description>{escape(one.text)}</description>"
            )
            parts.append(f"<addressOffset>{one.offset}</addressOffset><size>{8 * one.bytes}</size>")
            parts.append(f"<access>{ACCESS[one.rights]}</access>")
            parts.append(
                f"<resetValue>{value:#x}</resetValue><resetMask>{mask:#X}</resetMask><fields>".replace(
                    "0X", "0x"
                )
            )
            parts += [_svd_field(f) for f in one.fields]
            parts.append("</fields></register>")
        parts.append("</registers></peripheral>")
    return "".join([*parts, "</peripherals></device>"])


def _svd_field(one: Field) -> str:
    access, write, read = policy.TRIPLES[one.policy]
    text = f"<field><name>{one.name}</name><description>{escape(one.text)}</description>"
    text += f"<bitRange>[{one.lsb + one.width - 1}:{one.lsb}]</bitRange><access>{access}</access>"
    text += f"<modifiedWriteValues>{write}</modifiedWriteValues>" if write != "-" else ""
    return text + (f"<readAction>{read}</readAction>" if read != "-" else "") + "</field>"


def ipxact(blocks: List[Block], version: str) -> str:
    parts = [
        f'<component xmlns="{SPACES[version]}"><name>c</name><memoryMaps><memoryMap><name>m</name>'
    ]
    for block in blocks:
        parts.append(
            f"<addressBlock><name>{block.name}</name><baseAddress>{block.base}</baseAddress>"
        )
        parts.append("<range>4096</range><width>64</width>")
        for one in block.registers:
            parts.append(
                f"<register><name>{one.name}</name><description>{escape(one.text)}</description>"
            )
            parts.append(f"<addressOffset>{one.offset}</addressOffset><size>{8 * one.bytes}</size>")
            parts.append(_access(ACCESS[one.rights], version) + _old_reset(one, version))
            parts += [_ipxact_field(f, version) for f in one.fields]
            parts.append("</register>")
        parts.append("</addressBlock>")
    return "".join([*parts, "</memoryMap></memoryMaps></component>"])


def _access(access: str, version: str) -> str:
    text = f"<access>{access}</access>"
    return (
        text
        if version != "2022"
        else f"<accessPolicies><accessPolicy>{text}</accessPolicy></accessPolicies>"
    )


def _old_reset(one: Register, version: str) -> str:
    if version != "2009":
        return ""
    value = sum(f.resets.get("HARD", 0) << f.lsb for f in one.fields)
    mask = sum(((1 << f.width) - 1) << f.lsb for f in one.fields if "HARD" in f.resets)
    return f"<reset><value>{value:#x}</value><mask>{mask:#x}</mask></reset>"


def _ipxact_field(one: Field, version: str) -> str:
    access, write, read = policy.TRIPLES[one.policy]
    text = f"<field><name>{one.name}</name><description>{escape(one.text)}</description><bitOffset>{one.lsb}</bitOffset>"
    if version != "2009":
        kinds = {"HARD": ""}
        resets = (
            f'<reset{kinds.get(kind, f" resetTypeRef={chr(34)}{kind}{chr(34)}")}><value>{value}</value></reset>'
            for kind, value in one.resets.items()
        )
        text += f"<resets>{''.join(resets)}</resets>"
    text += f"<bitWidth>{one.width}</bitWidth><volatile>{str(one.volatile).lower()}</volatile>"
    rules = f"<access>{access}</access>"
    rules += f"<modifiedWriteValue>{write}</modifiedWriteValue>" if write != "-" else ""
    rules += f"<readAction>{read}</readAction>" if read != "-" else ""
    if version == "2022":
        rules = f"<fieldAccessPolicies><fieldAccessPolicy>{rules}</fieldAccessPolicy></fieldAccessPolicies>"
    return text + rules + "</field>"


def read_back(text: str, suffix: str) -> str:
    with tempfile.TemporaryDirectory() as folder:
        path = Path(folder) / f"chip.{suffix}"
        path.write_text(text, encoding="utf-8")
        return import_file(str(path)).text


def compare(blocks: List[Block], text: str, hidden: str, kinds: bool) -> None:
    assert sorted(without_maps(text)) == sorted(wanted(blocks, hidden, kinds))
    wanted_addresses = {
        f"{block.name}.{one.name}": block.base + one.offset
        for block in blocks
        for one in block.registers
    }
    assert addresses(text) == wanted_addresses


@settings(max_examples=30, deadline=None, database=None, suppress_health_check=list(HealthCheck))
@given(chips())
def test_svd(blocks: List[Block]) -> None:
    compare(blocks, read_back(svd(blocks), "svd"), "volatile", False)


@settings(max_examples=30, deadline=None, database=None, suppress_health_check=list(HealthCheck))
@given(chips(), st.sampled_from(sorted(SPACES)))
def test_ipxact(blocks: List[Block], version: str) -> None:
    compare(blocks, read_back(ipxact(blocks, version), "xml"), "", version != "2009")


@settings(max_examples=15, deadline=None, database=None, suppress_health_check=list(HealthCheck))
@given(chips(), st.integers(0, 2**32))
def test_order_of_the_file_is_no_matter(blocks: List[Block], seed: int) -> None:
    text = read_back(svd(blocks), "svd")
    shuffled = list(blocks)
    random.Random(seed).shuffle(shuffled)
    for block in shuffled:
        random.Random(seed).shuffle(block.registers)
    assert read_back(svd(shuffled), "svd") == text


@pytest.mark.skipif(regrun() is None, reason="the program regrun isn't built")
@settings(max_examples=3, deadline=None, database=None, suppress_health_check=list(HealthCheck))
@given(chips(), st.sampled_from(["svd", "2009", "2014", "2022"]))
def test_map_takes_each(blocks: List[Block], form: str) -> None:
    text = read_back(svd(blocks) if form == "svd" else ipxact(blocks, form), "xml")
    status, layout = ask(["map"], text)
    places = sum(len(block.registers) for block in blocks)
    assert (status, layout.splitlines()[-1]) == (0, f"end: {places} places")
