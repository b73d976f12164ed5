"""Hostile and large files: refused in one line, in bounded time and 200 MB."""

from __future__ import annotations

import os
import subprocess
import sys
from pathlib import Path
from typing import Callable, Dict, Tuple

import pytest

from importing import PYTHON

pytest.importorskip("defusedxml", reason="python3-defusedxml isn't installed")

# On a slow and busy processor it takes some seconds; what grew with the square of a file would take minutes.
SECONDS, KILOBYTES = 30.0, 200 * 1024
IPXACT = 'xmlns="http://www.accellera.org/XMLSchema/IPXACT/1685-2014"'


def device(peripherals: str, head: str = "") -> str:
    return f"{head}<device><name>D</name><peripherals>{peripherals}</peripherals></device>"


def registers(inner: str) -> str:
    return device(
        f"<peripheral><name>P</name><baseAddress>0</baseAddress><registers>{inner}</registers></peripheral>"
    )


def register(name: str, offset: str = "0", inner: str = "", derived: str = "") -> str:
    of = f' derivedFrom="{derived}"' if derived else ""
    return f"<register{of}><name>{name}</name><addressOffset>{offset}</addressOffset>{inner}</register>"


def component(field: str, parameters: str = "") -> str:
    return (
        f"<component {IPXACT}><name>c</name><memoryMaps><memoryMap><name>m</name><addressBlock><name>b</name>"
        "<baseAddress>0</baseAddress><range>16</range><width>32</width><register><name>r</name>"
        f"<addressOffset>0</addressOffset><size>32</size>{field}</register></addressBlock></memoryMap></memoryMaps>"
        f"<parameters>{parameters}</parameters></component>"
    )


LAUGHS = '<!DOCTYPE d [<!ENTITY a "ha">' + "".join(
    f'<!ENTITY a{n} "{f"&a{n - 1};" * 10 if n else "&a;" * 10}">' for n in range(9)
) + "]>"  # fmt: skip
EXTERNAL = '<!DOCTYPE d [<!ENTITY x SYSTEM "file:///etc/passwd">]>'
REMOTE = '<!DOCTYPE d SYSTEM "http://192.0.2.1/d.dtd">'
DIGITS = "9" * 10_000
LOOP = register("A", "0", derived="B") + register("B", "4", derived="A")
NESTED = "<cluster><name>C</name><addressOffset>0</addressOffset>"
INSIDE = (
    "<cluster><name>C</name><addressOffset>0</addressOffset>"
    '<cluster derivedFrom="C"><name>D</name></cluster></cluster>'
)
WIDE = registers("".join(
    f"<cluster><name>C{n}%s</name><dim>60000</dim><dimIncrement>4</dimIncrement><addressOffset>0</addressOffset>"
    for n in range(4)
) + register("R") + "</cluster>" * 4)  # fmt: skip
PARAMETERS = "".join(
    f'<parameter parameterId="p{n}"><name>p{n}</name><value>p{(n + 1) % 200} + p{(n + 1) % 200}</value></parameter>'
    for n in range(200)
)
CHAIN = (
    "".join(
        f'<peripheral derivedFrom="P{n + 1}"><name>P{n}</name></peripheral>' for n in range(3000)
    )
    + "<peripheral><name>P3000</name></peripheral>"
)
ENUMERATED = registers("".join(register(f"R{n}", str(4 * n), "<fields>" + "".join(
    f"<field><name>F{f}</name><lsb>0</lsb><msb>0</msb><enumeratedValues><name>E</name></enumeratedValues></field>"
    f'<field><name>G{f}</name><lsb>0</lsb><msb>0</msb><enumeratedValues derivedFrom="X{n}.Y{f}.E"/></field>'
    for f in range(30)
) + "</fields>") for n in range(500)))  # fmt: skip
FIELDS = "register,offset,field,bits,access\nR,0,,,\n" + ",,F,0,RW\n" * 120_000
BITS = "<field><name>f</name><bitOffset>0</bitOffset><bitWidth>{}</bitWidth></field>"

# The file's name, what stands in it, and what the one line has.
HOSTILE: Dict[str, Tuple[str, Callable[[], str], str]] = {
    "entity expansion": ("a.svd", lambda: device("&a8;", LAUGHS), "a DTD"),
    "external entity": ("a.svd", lambda: device("&x;", EXTERNAL), "a DTD"),
    "external DTD": ("a.xml", lambda: device("", REMOTE), "a DTD"),
    "undefined entity": ("a.svd", lambda: device("&b;"), "not XML"),
    "50 MB of XML": ("a.svd", lambda: device(" " * 50_000_000), "more than 33,554,432 bytes"),
    "50 MB of a table": ("a.csv", lambda: "register,offset,bits\n" + "A,0,1\n" * 8_000_000, "more than 33,554,432 bytes"),
    "20 MB of hjson": ("a.hjson", lambda: "{ a: [" + "1," * 10_000_000 + "]}", "more than 4,194,304 bytes"),
    "4 MB of brackets": ("a.hjson", lambda: "{ a: " + "[" * 4_000_000, "nested more than 64 deep"),
    "4 MB of values": ("a.hjson", lambda: "{ a: [" + "1," * 2_000_000 + "]}", "more than 200,000 values"),
    "30 MB of elements": ("a.svd", lambda: device("<a/>" * 7_500_000), "more than 500,000 elements"),
    "30 MB of a text": ("a.svd", lambda: device("<name>" + "x" * 30_000_000 + "</name>"), "a text of more than"),
    "nesting of 10,000": ("a.svd", lambda: device("<a>" * 10_000 + "</a>" * 10_000), "nested more than 64 deep"),
    "nested clusters": ("a.svd", lambda: registers(NESTED * 10_000 + "</cluster>" * 10_000), "nested more than 64 deep"),
    "nested hjson": ("a.hjson", lambda: "{ a: " * 10_000, "nested more than 64 deep"),
    "10,000 digits in SVD": ("a.svd", lambda: registers(register("R", DIGITS)), "nothing of it can be imported"),
    "10,000 digits in IP-XACT": ("a.xml", lambda: component(BITS.format(DIGITS)), "nothing of it can be imported"),
    "10,000 digits in hjson": ("a.hjson", lambda: f'{{ name: "a", regwidth: {DIGITS}, registers: [] }}', "characters"),
    "10,000 digits in a table": ("a.csv", lambda: f"register,offset,bits,access\nA,{DIGITS},0,RW\n", ":2: refused: nothing of it can be imported: A: a number of"),
    "enumerated values of one name": ("a.svd", lambda: ENUMERATED, "too many enumerated values"),
    "loop of derivedFrom": ("a.svd", lambda: registers(LOOP), "makes a loop"),
    "derived from itself": ("a.svd", lambda: registers(register("A", derived="A")), "makes a loop"),
    "a cluster in itself": ("a.svd", lambda: registers(INSIDE), "nested too deep"),
    "a chain of derivedFrom": ("a.svd", lambda: device(CHAIN), "derivedFrom of more than 32 steps"),
    "4 MB of comments": ("a.hjson", lambda: "#\n" * 2_000_000 + "{}", "not a file of reggen"),
    "120,000 fields": ("a.csv", lambda: FIELDS, "more than 100,000 fields"),
    "an array of arrays": ("a.svd", lambda: WIDE, "more than 50,000 registers"),
    "parameters in a loop": ("a.xml", lambda: component(BITS.format("p0"), PARAMETERS), "nothing of it"),
    "a power of powers": ("a.xml", lambda: component(BITS.format("9**9**9**9")), "imported: b.r.f: "),
    "another XML": ("a.xml", lambda: "<html/>", "`html` is neither"),
    "no XML": ("a.svd", lambda: "<device", "not XML"),
    "a register that is a text": ("a.hjson", lambda: '{ name: "a", registers: ["b"] }', ":1: refused: `registers` isn't a list"),
    "no hjson": ("a.hjson", lambda: "{ a: ", "not Hjson"),
    "no table": ("a.csv", lambda: "hello\n", "no header row"),
    "another format": ("a.rdl", lambda: "addrmap a {\n};\n", "or of a format that isn't read"),
    "bytes": ("a.bin", lambda: "\0\1\2", "a byte 0; a spreadsheet is read as CSV"),
    "nothing": ("a.svd", lambda: " \n", "nothing stands in it"),
    "quotes that don't end": ("a.csv", lambda: 'register,offset,bits\nA,0,"' + "x" * 1_000_000, "not a table"),
}  # fmt: skip


# Runs the command, and prints the seconds of a processor and the kilobytes that it took. What getrusage calls the most memory
# of a process has that of the one which started it, too; VmHWM is its own.
MEASURED = """
import sys, time
from regrun.importer.cli import main
status = main(sys.argv[1:])
print(time.process_time(), *(line.split()[1] for line in open("/proc/self/status") if line.startswith("VmHWM")))
sys.exit(status)
"""


def run(path: Path) -> Tuple[int, str, float, int]:
    """The status, the standard error, the seconds of a processor and the kilobytes of an import."""
    done = subprocess.run(
        [sys.executable, "-c", MEASURED, str(path), "-o", str(path.parent / "out.toml")],
        env={**os.environ, "PYTHONPATH": str(PYTHON)},
        capture_output=True,
        encoding="utf-8",
    )
    seconds, kilobytes = done.stdout.split()
    return done.returncode, done.stderr, float(seconds), int(kilobytes)


@pytest.mark.parametrize("what", HOSTILE)
def test_refused_in_one_line(what: str, tmp_path: Path) -> None:
    name, make, words = HOSTILE[what]
    path = tmp_path / name
    path.write_text(make(), encoding="utf-8")
    status, text, seconds, kilobytes = run(path)
    assert (status, text.count("\n"), words in text) == (2, 1, True), text
    assert seconds < SECONDS and kilobytes < KILOBYTES
    assert not (tmp_path / "out.toml").exists() and len(text) < 600
    path.unlink()


def many(count: int) -> str:
    bits = "".join(
        f"<field><name>F{n}</name><bitRange>[{4 * n + 3}:{4 * n}]</bitRange></field>"
        for n in range(8)
    )
    inner = f"<description>Register of a large chip</description><fields>{bits}</fields>"
    return registers("".join(register(f"R{n}", str(4 * n), inner) for n in range(count)))


def test_1000_registers(tmp_path: Path) -> None:
    path = tmp_path / "large.svd"
    path.write_text(many(1000), encoding="utf-8")
    status, text, seconds, kilobytes = run(path)
    assert (
        status == 0
        and "1,000 registers" not in text
        and ": 1 block, 1000 registers, 8000 fields" in text
    )
    assert seconds < SECONDS and kilobytes < KILOBYTES


def test_more_registers_than_a_description_has(tmp_path: Path) -> None:
    path = tmp_path / "larger.svd"
    path.write_text(many(1500), encoding="utf-8")
    status, text, _, _ = run(path)
    assert status == 0 and "476 registers from 0x1000 on are past the limit of 1,024" in text
