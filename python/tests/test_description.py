"""Descriptions in Python: the TOML that comes of them, what is read back, and the line that an error names."""

import sys
from pathlib import Path

import pytest
from hypothesis import HealthCheck, given, settings
from hypothesis import strategies as st

import regrun
from regrun import Block, Description, Field, Memory, Register, RegisterFile
from regrun.description import POLICIES
from regrun.program import mapped

tomllib = pytest.importorskip("tomllib" if sys.version_info >= (3, 11) else "tomli")
TOP = Path(__file__).resolve().parents[2]

channel = Block(
    "channel",
    [
        Register(
            "ctrl",
            bytes=4,
            doc="What the channel does.",
            fields=[
                Field("enable", 0, 1, "RW", reset=0),
                Field(
                    "parity",
                    1,
                    2,
                    "RW",
                    reset=0,
                    values={"none": 0, "even": 1, "odd": 2},
                    doc="Parity bit.",
                ),
            ],
        ).at(0x0),
        Register("data", 4, [Field("word", 0, 32, "RW")]).at(0x8, count=2, stride=4),
    ],
)


def chip():
    """A block that is used three times, of them two as an array, an array of registers, a memory and a register file."""
    made = Description()
    apb = made.map("apb", bytes=4, adapter="apb", base=0x4000_0000)
    made.add(channel, map=apb, offset=0x100, name="first")
    made.add(channel, map=apb, offset=0x200, name="more", count=2, stride=0x40)
    made.add(Memory("ram", 4, 16, skip=["NO_MEM_WALK_TEST"]), map=apb, offset=0x800, of="first")
    made.add(
        RegisterFile(
            "keys", [Register("key", 8, [Field("all", 0, 64, "WO", reset=1 << 63)]).at(0)]
        ),
        map=apb,
        offset=0x900,
    )
    made.flaw("error-range", map="apb", from_=0x4000_0000, to=0x4000_0004)
    return made


def test_types_used_more_than_once():
    data = tomllib.loads(chip().to_toml())
    offsets = {it["item"]: it["offset"] for it in data["place"]}
    assert offsets == {
        "first.ctrl": 0x100,
        "first.data0": 0x108,
        "first.data1": 0x10C,
        "more0.ctrl": 0x200,
        "more0.data0": 0x208,
        "more0.data1": 0x20C,
        "more1.ctrl": 0x240,
        "more1.data0": 0x248,
        "more1.data1": 0x24C,
        "first.ram": 0x800,
        "keys.key": 0x900,
    }
    assert [it["name"] for it in data["block"]] == ["first", "more0", "more1"]
    ctrl = {
        "name": "ctrl",
        "of": "first",
        "bytes": 4,
        "field": [
            {"name": "enable", "lsb": 0, "width": 1, "policy": "RW", "reset": 0},
            {"name": "parity", "lsb": 1, "width": 2, "policy": "RW", "reset": 0},
        ],
    }
    assert data["reg"][0] == ctrl
    assert data["reg"][-1]["field"][0]["reset"] == "0x8000000000000000"
    assert data["flaw"] == [
        {"kind": "error-range", "map": "apb", "from": 0x4000_0000, "to": 0x4000_0004}
    ]


def test_rows_of_another_description_and_further_places(tmp_path, program):
    (tmp_path / "more.toml").write_text('[[reg]]\nname = "extra"\nbytes = 4\n')
    made = Description()
    first, second = made.map("first", 4), made.map("second", 4)
    made.add(channel, map=first, offset=0, count=2, stride=0x20)
    made.include(tmp_path / "more.toml")
    made.place(second, "extra", 0x10)
    made.place(second, "channel1.ctrl", 0x20, "ro")
    with regrun.Session(made, program=program) as s:
        assert [it.ctrl.check().map for it in s.channel] == ["first", "first"]
        assert s.extra.read().map == "second"
        with pytest.raises(
            regrun.Refused, match="write channel1.ctrl 0x1 @second: refused no right"
        ):
            s.write("channel1.ctrl", 1, "second")
        with pytest.raises(IndexError, match=r"channel has no 2; it has \[0, 1\]"):
            s.channel[2]


def test_notes_stand_beside(tmp_path, program):
    path = chip().save(tmp_path / "chip.toml")
    assert (tmp_path / "chip.notes.toml").exists()
    read = Description.read(path)
    assert (read.to_toml(), read.notes()) == (chip().to_toml(), chip().notes())
    toml = path.read_text().partition("\n[[flaw]]")[0] + "\n"
    path.write_text(toml)
    with regrun.Session(path, program=program) as s:
        s.first.ctrl.parity = "odd"
        assert (s.first.ctrl.parity.named(), int(s.more[1].data[0]), len(s.more)) == ("odd", 0, 2)
        s.more[1].data[1] = 7
        s.expect("more1.data1", 7)
        with pytest.raises(regrun.Unexpected, match="expected even, read odd"):
            s.expect("first.ctrl.parity", "even")
        with pytest.raises(
            regrun.UnknownName, match="no such value of first.ctrl.parity: 'od'; near it: odd"
        ):
            s.first.ctrl.parity = "od"


# What is wrong, and what the error says behind the file and line of Python.
WRONG = [
    (lambda: Field("a", 0, 1, "rw"), "policy of a is 'rw', and must be one of: RO RW"),
    (lambda: Field("a b", 0, 1, "RW"), "bad name 'a b'"),
    (lambda: Field("a", 0, 2, "RW", reset=4), "HARD reset of a is 4, and must be 0 to 3"),
    (lambda: Register("a", 2, [Field("b", 15, 2, "RW")]), "field b is outside the 16 bits of a"),
    (
        lambda: Register("a", 2, [Field("b", 0, 2, "RW"), Field("c", 1, 1, "RW")]),
        "fields b and c of a overlap",
    ),
    (lambda: Register("a", skip="NO_REG_TESTS"), "skip is a list, and not 'NO_REG_TESTS'"),
    (lambda: Register("a", 9), "bytes of a is 9, and must be 1 to 8"),
    (lambda: Memory("a", 4, 0), "size of a is 0, and must be 1 to 65536"),
    (lambda: Register("a").at(0, count=2), "2 times a need a stride"),
    (lambda: Description().map("a", 4, endian="Big"), "endian is 'Big'"),
]


@pytest.mark.parametrize("make, text", WRONG, ids=[text for _, text in WRONG])
def test_an_error_names_the_line(make, text):
    with pytest.raises(regrun.DescriptionError) as raised:
        make()
    where = f"{__file__}:{make.__code__.co_firstlineno}: "
    assert str(raised.value).startswith(where + text)


@pytest.mark.parametrize("caller", ["a b.py", "<string>"])
def test_a_row_that_python_cannot_read_names_its_line_alone(caller):
    """Whatever the file of the call is."""
    text = '[[reg]]\nname = "a"\nbytes = 4\n[[reg]]\nname = "b"\nbytes = 9\n'
    code = compile(f"Description.read({text!r})", caller, "exec")
    with pytest.raises(regrun.DescriptionError) as raised:
        exec(code, {"Description": Description, "__name__": "test"})
    assert str(raised.value) == "<text>:4: bytes of b is 9, and must be 1 to 8"


def test_what_the_program_refuses_names_the_line(program):
    made = Description()
    bus = made.map("bus", 4, adapter="apb")
    one = Register("one", 4, [Field("f", 0, 1, "RW")])
    two = Register("two", 4)
    made.add(one, map=bus, offset=0)
    made.add(two, map=bus, offset=0)
    line = test_what_the_program_refuses_names_the_line.__code__.co_firstlineno + 6
    for judge in (lambda: made.check(program), lambda: regrun.Session(made, program=program)):
        with pytest.raises(regrun.DescriptionRefused) as raised:
            judge()
        assert str(raised.value) == (
            f"{__file__}:{line}: the description is refused: place 2 (two): shared address 0x0 with place 1"
        )


# What stands in a file, and what its refusal says after the file's name: also where Python can't read its rows.
REFUSED = [
    (
        '[[reg]]\nname = "a"\nbytes = 4\n\n[[reg]]\nname = "a"\nbytes = 4\n',
        ":5: the description is refused: reg 2 (a): duplicate name: a",
    ),
    (
        '[[reg]]\nname = "a"\nbyte = 4\n',
        ":1: the description is refused: reg 1 (a): unknown key: byte (bytes?)",
    ),
    (
        '[[reg]]\nname = "a"\nbytes = 4\nfield = [{ name = "f", lsb = 0, width = 1, policy = "rw" }]\n',
        ":1: the description is refused: reg 1 field 1 (a): bad value of policy: rw (RW?)",
    ),
    (
        '[[reg]]\nname = "a"\nbytes = 4\n[[reg]\n',
        ":4: the description is refused: not toml: unclosed array table, expected `]]`",
    ),
    ('[[register]]\nname = "a"\n', ":1: the description is refused: unknown key: register"),
    ('reg = [{ name = "a", bits = 8 }]\n', ": the description is refused: reg 1 (a): unknown key"),
]


@pytest.mark.parametrize("text, said", REFUSED, ids=[said for _, said in REFUSED])
def test_what_is_refused_in_a_file_names_its_line(program, tmp_path, text, said):
    path = tmp_path / "chip.toml"
    path.write_text(text)
    with pytest.raises(regrun.DescriptionRefused) as raised:
        regrun.Session(path, program=program)
    assert str(raised.value) == f"{path}{said}"


def test_a_byte_order_mark_is_taken_and_another_encoding_is_not(program, tmp_path):
    path = tmp_path / "chip.toml"
    text = '[[reg]]\nname = "a"\nbytes = 1\n# 5 \u00b5s\n'
    path.write_text(text, encoding="utf-8-sig")
    with regrun.Session(path, program=program) as s:
        assert list(s.chip.registers) == ["a"]
        s.show("a")
    path.write_text(text, encoding="latin-1")
    with pytest.raises(regrun.DescriptionError) as raised:
        regrun.Session(path, program=program)
    assert str(raised.value) == f"{path}:4: not UTF-8"


NAMES = st.from_regex(r"[a-z][a-z0-9_]{0,6}", fullmatch=True)


@st.composite
def registers(draw):
    """A register type with fields side by side."""
    size = draw(st.integers(1, 8))
    fields, bit = [], 0
    for name in draw(st.lists(NAMES, unique=True, max_size=4)):
        lsb = bit + draw(st.integers(0, 3))
        if lsb >= 8 * size:
            break
        width = draw(st.integers(1, 8 * size - lsb))
        value = st.integers(0, (1 << width) - 1)
        reset = draw(
            st.one_of(
                st.none(),
                value,
                st.dictionaries(st.sampled_from(["HARD", "SOFT", "POR"]), value, max_size=2),
            )
        )
        more = {
            "volatile": draw(st.booleans()),
            "compare": draw(st.sampled_from([None, True, False])),
            "alone": draw(st.booleans()),
        }
        names = draw(st.dictionaries(NAMES, value, max_size=2))
        doc = draw(st.text(st.characters(blacklist_categories=["Cs"]), max_size=8))
        fields.append(
            Field(
                name,
                lsb,
                width,
                draw(st.sampled_from(POLICIES)),
                reset,
                values=names,
                doc=doc,
                **more,
            )
        )
        bit = lsb + width
    return Register("r", size, fields, backdoor=draw(st.booleans()))


@st.composite
def descriptions(draw):
    """A description that the program takes: each register stands 64 bytes apart."""
    made = Description()
    bus = made.map(
        "bus", draw(st.sampled_from([1, 2, 4, 8])), endian=draw(st.sampled_from(["little", "big"]))
    )
    for at, reg in enumerate(draw(st.lists(registers(), max_size=4))):
        members = [reg.at(0, count=draw(st.sampled_from([None, 1, 3])), stride=8)]
        made.add(
            Block(f"b{at}", members),
            map=bus,
            offset=64 * at,
            rights=draw(st.sampled_from(["rw", "ro"])),
        )
    return made


@settings(max_examples=15, deadline=None, suppress_health_check=list(HealthCheck))
@given(made=descriptions())
def test_what_is_written_is_read_back(made):
    read = Description.read(made.to_toml(), made.notes())
    assert (read.to_toml(), read.notes()) == (made.to_toml(), made.notes())


@settings(max_examples=10, deadline=None, suppress_health_check=list(HealthCheck))
@given(made=descriptions())
def test_what_is_written_is_taken(program, made):
    made.check(program)


@pytest.mark.parametrize(
    "name", ["uart", "map-tree", "memories", "wiring-flaw", "second-master", "pair"]
)
def test_a_description_by_hand_is_the_same_when_written_again(program, name):
    """The examples' descriptions, read and written, have the same layout, and the same log of their script."""
    session = (TOP / "examples" / f"{name}.regrun").read_text()
    read = Description.read(TOP / "examples" / f"{name}.regrun")
    assert mapped(read.to_toml(), program) == mapped(session.partition("\n---\n")[0], program)
    script = session.partition("\n---\n")[2].splitlines()
    with regrun.Session(read, program=program, on_error="return") as s:
        for line in script:
            s.do(line, on_error="return")
    assert s.log == (TOP / "examples" / f"{name}.log").read_text()
