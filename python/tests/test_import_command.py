"""The command: what to import, the report, `--strict`, the layout of the text, and what each choice does."""

from __future__ import annotations

from pathlib import Path
from typing import Dict, List, Tuple

import pytest

from importing import EXAMPLES, command, expected, lines_of

pytest.importorskip("defusedxml", reason="python3-defusedxml isn't installed")
from regrun import Description  # noqa: E402
from regrun.importer import Choice, Imported, Options, SourceError, import_file  # noqa: E402
from regrun.importer.choice import matches  # noqa: E402

SVD = str(EXAMPLES / "soc.svd")
STM32 = str(EXAMPLES / "stm32" / "stm32f205.svd")

# What a person would write for two registers, one with a name that isn't a name.
SMALL = """<device schemaVersion="1.3"><name>LED</name><description>Lights</description><peripherals>
<peripheral><name>LED</name><description>Lights
  of a board</description><baseAddress>0x50000000</baseAddress><registers>
<register><name>MODE-SEL</name><description>Mode</description><addressOffset>0x4</addressOffset><size>16</size>
<resetValue>0x1234</resetValue><fields>
<field><name>BLINK</name><description>How it blinks</description><bitRange>[11:4]</bitRange></field>
<field><name>ON</name><bitRange>[0:0]</bitRange><access>read-only</access><enumeratedValues>
<enumeratedValue><name>Dark</name><description>No light</description><value>0</value></enumeratedValue>
<enumeratedValue><name>Lit</name><value>1</value></enumeratedValue></enumeratedValues></field></fields></register>
<register><name>RAW</name><addressOffset>0x100</addressOffset><resetValue>0</resetValue><access>write-only</access>
</register></registers></peripheral></peripherals></device>"""
WRITTEN = """# LED: Lights
# From CMSIS-SVD 1.3, by python -m regrun import.

# 0x50000000 LED: Lights of a board
[[block]]
name = "LED"

[[map]]
name = "bus"
bytes = 4
base = 0x50000000

# 0x004 MODE-SEL: Mode
[[reg]]
name = "MODE_SEL"
of = "LED"
bytes = 2
field = [
  { name = "ON", lsb = 0, width = 1, policy = "RO", reset = 0 },
  #   0 Dark: No light
  #   1 Lit
  { name = "BLINK", lsb = 4, width = 8, policy = "RW", reset = 0x23 },  # How it blinks
]
[[place]]
map = "bus"
item = "LED.MODE_SEL"
offset = 0x004

# 0x100 RAW
[[reg]]
name = "RAW"
of = "LED"
bytes = 4
field = [
  { name = "value", lsb = 0, width = 32, policy = "WO", reset = 0x00000000 },
]
[[place]]
map = "bus"
item = "LED.RAW"
offset = 0x100
rights = "wo"
"""
REPORTED = """led.svd:4: changed: LED.MODE-SEL: `MODE-SEL` has the name MODE_SEL
led.svd: 1 block, 2 registers, 3 fields, 0 memories; 1 changed, 0 left out, 0 noted
"""


def test_text_and_report(tmp_path: Path) -> None:
    (tmp_path / "led.svd").write_text(SMALL)
    done = command("led.svd", folder=tmp_path)
    assert (done.returncode, done.stdout, done.stderr) == (0, WRITTEN, REPORTED)
    assert command("led.svd", "--strict", folder=tmp_path).returncode == 0


def test_notes_are_those_of_a_session(tmp_path: Path) -> None:
    (tmp_path / "led.svd").write_text(SMALL)
    words = ["led.svd", "-o", "led.toml", "--notes", "led.notes.toml"]
    assert command(*words, folder=tmp_path).returncode == 0
    chip = Description.read(tmp_path / "led.toml")
    mode = chip.registers["LED.MODE_SEL"]
    assert [(it.name, it.doc, it.values) for it in mode.fields] == [
        ("ON", "", {"Dark": 0, "Lit": 1}),
        ("BLINK", "How it blinks", {}),
    ]
    assert mode.doc == "Mode"


def items(text: str) -> List[str]:
    return [line.split(" ")[1] for line in lines_of(text) if line.startswith(("reg", "mem"))]


CHOICES: Dict[str, Tuple[Choice, List[str]]] = {
    "a block": (
        Choice(["DMA"]),
        ["DMA_FLAG_SET", "DMA_FIRST0", "DMA_SRC", "DMA_NEXTA", "DMA_NEXTB"],
    ),
    "blocks by a pattern": (Choice(["UART?"]), ["RBR", "THR", "CTRL", "STAT", "CTRL2"]),
    "addresses": (Choice([], [(0x40001004, 0x40001009)]), ["CTRL"]),
    "two ranges": (
        Choice([], [(0x40001008, 0x4000100B), (0x40000000, 0x40000003)]),
        ["STAT", "DMA_FLAG_SET"],
    ),
    "a named alternate": (Choice(["UART1"], [(0x40001000, 0x40001003)], ["UART1.DIV"]), ["DIV"]),
    "a named field": (Choice(["UART1"], [(0x40001004, 0x40001007)], ["*.CTRL.HALF"]), ["CTRL"]),
}


@pytest.mark.parametrize("what", CHOICES)
def test_choice(what: str) -> None:
    choice, names = CHOICES[what]
    text = import_file(SVD, choice=choice).text
    assert {item.rpartition(".")[2] for item in items(text)} == set(names)
    assert ('"HALF"' in text, '"TRIM"' in text) == (
        (True, False) if what == "a named field" else (False, "CTRL" in names)
    )


def test_patterns() -> None:
    assert matches("DMA.CH[4].NEXT", "DMA.CH[4].N*") and matches("UART1", "UART?")
    assert not matches("DMA.CH4.NEXT", "DMA.CH[4].*") and not matches("UART1", "uart1")


def test_whole_expected_is_the_choice_of_all() -> None:
    text = import_file(SVD, choice=Choice(["*"], [(0, 2**64 - 1)])).text
    assert sorted(lines_of(text)) == sorted(expected("soc.svd")[0])


def test_base_adapter_volatile_and_backdoor() -> None:
    options = Options("apb", 0x1000, ["UART1.CTRL.*", "UART1.STAT*", "UART9.*"])
    result = import_file(SVD, None, Choice(["UART1"]), options, backdoor=False)
    text, lines = result.text, lines_of(result.text)
    assert "map bus bytes=4 adapter=apb base=0x40002000" in lines
    assert "  EN 0:0 RW volatile HARD=0x0" in lines
    assert "  DONE 0:0 W1C volatile HARD=0x0" in lines
    unmet = [entry.text for entry in result.report.entries if "no field is like it" in entry.text]
    assert unmet == ["--volatile `UART9.*`: no field is like it"]
    assert text.count("backdoor = false") == text.count("[[reg]]")


DERIVED = """<device><name>D</name><peripherals>
<peripheral><name>P1</name><baseAddress>0</baseAddress><registers>
<register><name>A</name><addressOffset>0</addressOffset><resetValue>7</resetValue></register></registers></peripheral>
<peripheral derivedFrom="P1"><name>P2</name><baseAddress>0x10</baseAddress></peripheral>
<peripheral><name>P3</name><baseAddress>0x20</baseAddress><registers>
<register derivedFrom="P2.A"><name>B</name></register>
<register><name>C</name><addressOffset>0</addressOffset></register></registers></peripheral></peripherals></device>"""


def test_derived_from_what_is_derived_and_the_first_of_the_file(tmp_path: Path) -> None:
    (tmp_path / "d.svd").write_text(DERIVED)
    result = import_file(str(tmp_path / "d.svd"))
    assert "reg P3.B bytes=4 at P3+0x0 rw" in lines_of(result.text)
    assert lines_of(result.text)[-1] == "  value 31:0 RW HARD=0x7"
    assert [(one.line, one.kind, one.where) for one in result.report.entries] == [
        (7, "left out", "P3.C")
    ]


def peripheral(name: str, base: int, *registers: str) -> str:
    """A peripheral whose registers have these fields: R0, R1 and so on."""
    inner = "".join(
        f"<register><name>R{at}</name><addressOffset>{4 * at}</addressOffset><fields>{one}</fields></register>"
        for at, one in enumerate(registers)
    )
    return f"<peripheral><name>{name}</name><baseAddress>{base}</baseAddress><registers>{inner}</registers></peripheral>"


def of_svd(folder: Path, *peripherals: str) -> Imported:
    """The import of an SVD with these peripherals."""
    path = folder / "d.svd"
    inner = "\n".join(peripherals)
    path.write_text(f"<device><name>D</name><peripherals>{inner}</peripherals></device>")
    return import_file(str(path))


def field_of_values(bit: int, values: str) -> str:
    return f"<field><name>F{bit}</name><lsb>{bit}</lsb><msb>{bit}</msb>{values}</field>"


VALUES = "<enumeratedValues><name>E</name><enumeratedValue><name>{}</name><value>0</value></enumeratedValue></enumeratedValues>"
NAMED = '<enumeratedValues derivedFrom="{}"/>'


def test_enumerated_values_by_name_and_by_the_end_of_a_path(tmp_path: Path) -> None:
    first = field_of_values(0, VALUES.format("Off")) + field_of_values(1, NAMED.format("E"))
    other = field_of_values(0, VALUES.format("Low")) + field_of_values(1, NAMED.format("E"))
    ends = field_of_values(0, NAMED.format("R0.F0.E")) + field_of_values(1, NAMED.format("E"))
    result = of_svd(tmp_path, peripheral("P", 0, first, other), peripheral("Q", 16, ends))
    rows = [row for section in result.description.sections for row in section.items]
    fields = {
        f"{row.of}.{row.name}.{it.name}": it for row in rows for it in getattr(row, "fields", [])
    }
    assert {path: [value.name for value in it.values] for path, it in fields.items()} == {
        "P.R0.F0": ["Off"], "P.R0.F1": ["Off"], "P.R1.F0": ["Low"], "P.R1.F1": ["Low"],
        "Q.R0.F0": ["Off"], "Q.R0.F1": [],
    }  # fmt: skip
    said = [f"{it.where}: {it.text}" for it in result.report.entries if it.kind == "left out"]
    assert said == ["Q.R0.F1: derivedFrom `E` isn't in the file, or not once"]


# Fields of an SVD's register, and what comes of them.
SPELLED = "<field><name>A</name><lsb>0</lsb><msb>1</msb></field>"
FIELDS: Dict[str, Tuple[str, List[str]]] = {
    "derived from other spellings of bits": (
        SPELLED
        + '<field derivedFrom="A"><name>B</name><bitRange>[5:3]</bitRange></field>'
        + '<field derivedFrom="B"><name>C</name><bitOffset>6</bitOffset></field>'
        + '<field derivedFrom="C"><name>D</name><lsb>9</lsb><msb>9</msb></field>'
        + '<field derivedFrom="D"><name>E</name><bitOffset>10</bitOffset><bitWidth>4</bitWidth></field>'
        + '<field derivedFrom="E"><name>F</name><bitOffset>14</bitOffset></field>',
        ["A 1:0 RW", "B 5:3 RW", "C 8:6 RW", "D 9:9 RW", "E 13:10 RW", "F 17:14 RW"],
    ),
}


@pytest.mark.parametrize("what", FIELDS)
def test_fields_of_svd(what: str, tmp_path: Path) -> None:
    fields, lines = FIELDS[what]
    result = of_svd(tmp_path, peripheral("P", 0, fields))
    assert [line.strip() for line in lines_of(result.text)[3:]] == lines
    assert result.report.number("left out") == 0


# What stands in an address block of IP-XACT and behind it, and what comes of it.
NUMBERS = "<addressOffset>0</addressOffset><size>32</size>"
BIT = "<field><name>F</name><bitOffset>0</bitOffset><bitWidth>1</bitWidth></field>"
IPXACT: Dict[str, Tuple[str, List[str], List[str]]] = {
    "an alternate register with its own access": (
        f"<register><name>A</name>{NUMBERS}<access>read-only</access><volatile>true</volatile>{BIT}"
        "<alternateRegisters><alternateRegister><name>B</name><access>write-only</access><volatile>false</volatile>"
        f"{BIT}</alternateRegister></alternateRegisters></register>",
        ["reg b.A bytes=4 at m+0x0 ro", "  F 0:0 RO volatile"]
        + ["reg b.B bytes=4 at m+0x0 wo", "  F 0:0 WO"],
        [],
    ),
    "an alternate register without fields": (
        f"<register><name>A</name>{NUMBERS}<access>read-only</access>{BIT}<alternateRegisters>"
        "<alternateRegister><name>B</name><access>write-only</access></alternateRegister></alternateRegisters></register>",
        ["reg b.A bytes=4 at m+0x0 ro", "  F 0:0 RO uncompared"]
        + ["reg b.B bytes=4 at m+0x0 wo", "  value 31:0 WO"],
        ["changed b.A.F: no reset value: not compared"],
    ),
    "a register's access by mode": (
        f"<register><name>A</name>{NUMBERS}<accessPolicies><accessPolicy><modeRef>debug</modeRef><access>read-only</access>"
        f"</accessPolicy><accessPolicy><access>write-only</access></accessPolicy></accessPolicies>{BIT}</register>",
        ["reg b.A bytes=4 at m+0x0 wo", "  F 0:0 WO"],
        ["changed A: of its access policies by mode the one of no mode is taken"],
    ),
    "definitions in another file": (
        f"<register><name>A</name>{NUMBERS}<access>write-only</access>{BIT}</register></addressBlock>"
        "<bank><name>k</name><baseAddress>32</baseAddress><bankDefinitionRef>t</bankDefinitionRef></bank>"
        "<addressBlock><name>d</name><baseAddress>64</baseAddress><addressBlockDefinitionRef>t</addressBlockDefinitionRef>",
        ["reg b.A bytes=4 at m+0x0 wo", "  F 0:0 WO"],
        [f"left out {name}: its definition `t` stands in another file" for name in "kd"],
    ),
}


@pytest.mark.parametrize("what", IPXACT)
def test_parts_of_ipxact(what: str, tmp_path: Path) -> None:
    registers, lines, said = IPXACT[what]
    path = tmp_path / "c.xml"
    path.write_text(
        '<component xmlns="http://www.accellera.org/XMLSchema/IPXACT/1685-2022"><name>c</name><memoryMaps>'
        "<memoryMap><name>m</name><addressBlock><name>b</name><baseAddress>0</baseAddress><range>16</range>"
        f"<width>32</width>{registers}</addressBlock></memoryMap></memoryMaps></component>"
    )
    result = import_file(str(path))
    assert lines_of(result.text)[2:] == lines
    assert [f"{it.kind} {it.where}: {it.text}" for it in result.report.entries] == said


STATUSES: Dict[str, Tuple[List[str], int, str]] = {
    "strict": ([SVD, "--strict"], 1, "15 left out"),
    "strict with nothing left out": ([STM32, "--strict", "--block", "USART*"], 0, "0 left out"),
    "no such file": (["nothing.svd"], 3, "No such file"),
    "a folder": (["."], 3, "directory"),
    "no such output": ([SVD, "-o", "/nowhere/x"], 4, "No such file"),
    "no such report": ([SVD, "--report", "/nowhere/x"], 4, "No such file"),
    "no such block": ([SVD, "--block", "UART9"], 2, "the file has the blocks UART1, UART2, DMA"),
    "nothing to take": ([SVD, "--take", "UART1.CTRL9"], 2, "shares its place"),
    "an empty range": ([SVD, "--address", "1-2"], 2, "20 registers weren't chosen by"),
    "a wrong range": ([SVD, "--address", "9-2"], 2, "ends before it begins"),
    "the wrong format": ([SVD, "--format", "ipxact"], 2, "neither"),
    "no word": ([], 2, "usage"),
    "help": (["--help"], 0, ""),
}


@pytest.mark.parametrize("what", STATUSES)
def test_status(what: str) -> None:
    words, status, text = STATUSES[what]
    done = command(*words)
    assert done.returncode == status and text in done.stderr, done.stderr
    assert (done.stdout == "") == (status != 0)


def test_words_of_a_file(tmp_path: Path) -> None:
    words = tmp_path / "choice"
    words.write_text("# The block that we have.\r\n\r\n--block\r\n  UART1 \r\n--volatile=*.CTRL.*\r\n")
    done = command(SVD, f"@{words}")
    assert done.returncode == 0
    assert {item.partition(".")[0] for item in items(done.stdout)} == {"UART1"}
    assert "volatile, as --volatile says" in done.stderr


TABLES = {
    "tabs, and a register in each row": "reg\taddr\tfield\tmsb\tlsb\ttype\tdefault\nA\t0x0\tF\t3\t0\tRW\t5\nA\t0x0\tG\t7\t4\tRO\t1\n",
    "commas and bars in the text": 'Name,note\n\nRegister Name,Offset,Bit Field,Bit Range,Attr,Reset,Comment\nA,0,F,[3:0],R/W,5h,"a, b | c"\n,,G,[7:4],R,1,\n',
    "bars": "| register | offset | field | bits | access | reset |\n|---|---|---|---|---|---|\n| A | 0 | F | 3:0 | rw | 5 |\n| | | G | 7:4 | r | 1 |\n",
    "widths": "register;offset;field;lsb;width;access;reset\nA;0;F;0;4;rw;5\n;;G;4;4;ro;1\n",
    "the register's reset": "register;offset;field;bits;access;reset\nA;0;;;rw;0x15\n;;F;3:0;;\n;;G;7:4;ro;\n",
    "names of columns in two lines": '"Register\nname",Offset,Field,"Bit\nrange",Access,"Reset\nvalue"\nA,0,F,3:0,RW,5\n,,G,7:4,RO,1\n',
    "the header row again": "register,Offset address,field,bits,access,reset\nA,0,F,3:0,RW,5\n\nRegister,Offset,Field,Bits,Access,Reset\n,,G,7:4,RO,1\n",
    "a size in words": "register,offset,size,field,bits,access,reset\nA,0,32-bit,F,3:0,RW,5\n,,,G,7:4,RO,1\n",
    "Windows": "\ufeffregister;offset;field;bits;access;reset\r\nA;0;F;3:0;rw;5\r\n;;G;7:4;ro;1\r\n",
    "UTF-16": "\ufeffregister\toffset\tfield\tbits\taccess\treset\r\nA\t0\tF\t3:0\trw\t5\r\n\t\tG\t7:4\tro\t1\r\n",
}  # fmt: skip


@pytest.mark.parametrize("what", TABLES)
def test_tables(what: str, tmp_path: Path) -> None:
    path = tmp_path / "t.csv"
    path.write_bytes(TABLES[what].encode("utf-16-le" if what == "UTF-16" else "utf-8"))
    wanted = [
        "map bus bytes=4",
        "block regs",
        "reg regs.A bytes=4 at bus+0x0 rw",
        "  F 3:0 RW HARD=0x5",
        "  G 7:4 RO HARD=0x1",
    ]
    assert lines_of(import_file(str(path)).text) == wanted


def test_a_block_with_the_name_of_a_register(tmp_path: Path) -> None:
    path = tmp_path / "t.csv"
    path.write_text(
        "block,register,offset,field,bits,access\n"
        "SYS,UART,0x0,ON,0,RW\nUART,CTRL,0x4,ON,0,RW\nTIMER,TIMER,0x8,COUNT,7:0,RW\n,LOAD,0xc,VALUE,7:0,RW\n"
    )
    result = import_file(str(path))
    assert sorted(items(result.text)) == ["SYS.UART", "TIMER.LOAD", "TIMER.TIMER", "UART.CTRL"]
    assert result.report.number("left out") == 0


# What of a table comes, where a reader of its rows would say so, and what the report says of the first row that is left out.
PARTS = {
    "a field of which nothing is known": (
        "register,offset,field,bits,access\nA,0,F,7:0,RW\nB,4,F,7:0,maybe\n",
        ["reg regs.A bytes=4 at bus+0x0 rw skip NO_REG_HW_RESET_TEST", "  F 7:0 RW"],
        "B.F: the access `maybe` isn't known",
    ),
    "a reset value that is no number": (
        "register,offset,field,bits,access,reset\nA,0,F,7:0,RO,1F\n",
        ["reg regs.A bytes=4 at bus+0x0 rw", "  F 7:0 RO uncompared"],
        "A.F: its reset value: `1F` isn't a number",
    ),
    "reset values with a 0 in front": (
        "register,offset,field,bits,access,reset\nA,0,F,3:0,RW,0001\n,,G,7:4,RO,0010\n",
        ["reg regs.A bytes=4 at bus+0x0 rw", "  F 3:0 RW HARD=0x1", "  G 7:4 RO uncompared"],
        "A.G: its reset value: the base of `0010` isn't known: 0b and 0x tell it",
    ),
    "the width of a register": (
        "register,offset,width,access,reset\nA,0,16,RW,0x1234\nB,2,8,RO,1\n",
        ["reg regs.A bytes=2 at bus+0x0 rw", "  value 15:0 RW HARD=0x1234"]
        + ["reg regs.B bytes=1 at bus+0x2 rw", "  value 7:0 RO HARD=0x1"],
        "",
    ),
}  # fmt: skip


@pytest.mark.parametrize("what", PARTS)
def test_parts_of_a_table(what: str, tmp_path: Path) -> None:
    text, lines, left_out = PARTS[what]
    path = tmp_path / "t.csv"
    path.write_text(text)
    result = import_file(str(path))
    assert lines_of(result.text)[2:] == lines
    said = [one for one in result.report.entries if one.kind == "left out"]
    assert [f"{one.where}: {one.text}" for one in said[:1]] == ([left_out] if left_out else [])


# A header row, and what is said of its columns: in the report, or in the refusal.
HEADERS = {
    "a column of another name": (
        "register,offset,field,bits,access,HW Access,Reset (hex)\nA,0,F,0,RO,RW,1F\n",
        "1: columns that aren't read: `HW Access`, `Reset (hex)`",
    ),
    "no offset": (
        "A table\nregister,Offset (hex),field,bits,access\nA,0,F,0,RO\n",
        "2: the header row has no column `offset`; columns that aren't known: `Offset (hex)`",
    ),
    "no register": (
        "type,mode,notes\nName,offset,bits,access\nA,0,0,RO\n",
        "2: the header row has no column `register`; columns that aren't known: `Name`",
    ),
}


@pytest.mark.parametrize("what", HEADERS)
def test_headers_of_a_table(what: str, tmp_path: Path) -> None:
    text, said = HEADERS[what]
    path = tmp_path / "t.csv"
    path.write_text(text)
    try:
        first = import_file(str(path)).report.entries[0]
        assert f"{first.line}: {first.text}" == said
    except SourceError as error:
        assert f"{error.line}: {error.text}" == said


def test_what_a_file_of_reggen_lacks(tmp_path: Path) -> None:
    path = tmp_path / "a.hjson"
    path.write_text(
        '{ name: "a", registers: [\n{ name: "R", swaccess: "rw", fields: [{ bits: "0" }, { name: "f" }] },\n'
        '{ multireg: { name: "M", swaccess: "rw", fields: [{ bits: "0" }] } } ] }'
    )
    said = [(it.line, it.where, it.text) for it in import_file(str(path)).report.entries]
    assert said == [(2, "a.R.f", "no bits"), (3, "a.M", "no count")]


HJSON = {
    "{a: 1, b: [1, 2, 'x'\n\"y\"], c: {}}": {"a": "1", "b": ["1", "2", "x", "y"], "c": {}},
    "# c\na: text to the end, of } it\n// c\nb:'''\n  one\n   two\n  '''\n/* c */ 'c': true": {
        "a": "text to the end, of } it", "b": "one\n two", "c": "true",
    },
    '{"a": "\\u0041\\n\\"" b: -1.5e3 }': {"a": 'A\n"', "b": "-1.5e3"},
}  # fmt: skip


@pytest.mark.parametrize("text", HJSON)
def test_hjson(text: str) -> None:
    from regrun.importer import hjsontree

    assert hjsontree.parse(text) == HJSON[text]
