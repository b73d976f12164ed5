"""What the tests of the importer share: the examples, and a description as lines to compare."""

from __future__ import annotations

import os
import shutil
import subprocess
import sys
from pathlib import Path
from typing import Any, Dict, List, Optional, Tuple

HERE = Path(__file__).resolve().parent
PYTHON = HERE.parent
CHECKOUT = PYTHON.parent
EXAMPLES = CHECKOUT / "examples" / "import"
EXPECTED = HERE / "data" / "import"
sys.path.insert(0, str(PYTHON))

try:
    import tomllib as toml
except ImportError:
    import tomli as toml  # type: ignore[no-redef]

Lines = List[str]


def built(name: str) -> Optional[str]:
    """A program: the environment's (REGRUN, REGRUN_LINK), else the built one of the checkout, else the one on PATH."""
    crate = {"regrun": "regrun_main"}.get(name, name.replace("-", "_"))
    program = CHECKOUT / "crates" / crate / "out" / crate
    asked = os.environ.get(name.upper().replace("-", "_"))
    return asked or (str(program) if program.exists() else shutil.which(name))


def regrun() -> Optional[str]:
    """The program that runs sessions over the model."""
    return built("regrun")


def ask(words: List[str], text: str, script: str = "") -> Tuple[int, str]:
    """Runs the program over a description; gives its status and its log."""
    program = regrun()
    assert program is not None
    session = f"{text}---\n{script}"
    done = subprocess.run(
        [program, *words], input=session.encode(), capture_output=True, timeout=600
    )
    return done.returncode, done.stdout.decode()


def command(*words: str, folder: Optional[Path] = None) -> "subprocess.CompletedProcess[str]":
    """Runs `python -m regrun.importer`."""
    environment = {**os.environ, "PYTHONPATH": str(PYTHON)}
    return subprocess.run(
        [sys.executable, "-m", "regrun.importer", *words],
        capture_output=True,
        text=True,
        timeout=600,
        env=environment,
        cwd=folder or EXAMPLES,
    )


def number(value: Any) -> int:
    """A number of a description."""
    return value if isinstance(value, int) else int(value, 0)


def lines_of(text: str) -> Lines:
    """A description as lines, maps before blocks, files and items."""
    chip = toml.loads(text)
    lines = [_map(row) for row in chip.get("map", [])]
    for key in ("block", "file"):
        lines += [f"{key} {path(row)}" for row in chip.get(key, [])]
    places: Dict[str, List[str]] = {}
    for row in chip.get("place", []):
        place = f"{row['map']}+{number(row.get('offset', 0)):#x} {row.get('rights', 'rw')}"
        places.setdefault(row["item"], []).append(place)
    for row in chip.get("reg", []):
        lines += _register(row, places)
    for row in chip.get("mem", []):
        size = f"bytes={row['bytes']} size={row['size']} {row.get('access', 'rw')}"
        skip = "".join(f" skip {' '.join(row[key])}" for key in ("skip",) if key in row)
        lines.append(f"mem {path(row)} {size} at {' '.join(places[path(row)])}{skip}")
    return lines


def path(row: Dict[str, Any]) -> str:
    return f"{row['of']}.{row['name']}" if "of" in row else str(row["name"])


def _map(row: Dict[str, Any]) -> str:
    words = [f"map {row['name']} bytes={row['bytes']}"]
    words += [
        f"{key}={row[key]}" for key in ("endian", "addressing", "adapter", "parent") if key in row
    ]
    words += [f"{key}={number(row[key]):#x}" for key in ("base", "offset") if key in row]
    return " ".join(words)


def _register(row: Dict[str, Any], places: Dict[str, List[str]]) -> Lines:
    words = f"reg {path(row)} bytes={row['bytes']} at {' '.join(places[path(row)])}"
    if "skip" in row:
        words += f" skip {' '.join(row['skip'])}"
    return [words] + [f"  {field_line(field)}" for field in row.get("field", [])]


def field_line(field: Dict[str, Any]) -> str:
    """A field as one line."""
    high = field["lsb"] + field["width"] - 1
    words = [field["name"], f"{high}:{field['lsb']}", field["policy"]]
    words += ["volatile"] if field.get("volatile") else []
    words += [] if field.get("compare", True) else ["uncompared"]
    reset = field.get("reset", {})
    resets = reset if isinstance(reset, dict) else {"HARD": reset}
    words += [f"{kind}={number(value):#x}" for kind, value in sorted(resets.items())]
    return " ".join(words)


def expected(name: str) -> Tuple[Lines, Lines]:
    """The lines of a description and of a report that stand beside the tests."""
    lines = (EXPECTED / f"{name}.expected").read_text(encoding="utf-8").splitlines()
    stands = [line for line in lines if line and not line.startswith("#")]
    report = [line[len("report ") :] for line in stands if line.startswith("report ")]
    return [line for line in stands if not line.startswith("report ")], report
