#!/usr/bin/env bash
# check.sh [OPTION OF PYTEST..]: the tests of the Python package, and those of each folder of examples that has some.
#
# The programs are those of REGRUN, REGRUN_LINK, REGRUN_GRADE and REGRUN_WAVES, or else the built ones of this checkout; what
# needs one that isn't there is skipped. PYTHON is the interpreter. The tests are spread over the processors where pytest-xdist
# is installed. The last line is 'N passed, M failed, K skipped', and the status is 0 where none failed. Where pytest or
# hypothesis isn't installed, one skipped test is counted.
set -u
here=$(cd "$(dirname "$(realpath "$0")")" && pwd)
top=$(dirname "$here")

# has: whether an interpreter has what the tests need.
has() { "$1" -c 'import pytest, hypothesis' 2> /dev/null; }
python=
for each in ${PYTHON:+"$PYTHON"} python3 /usr/bin/python3; do
    if has "$each"; then
        python=$each
        break
    fi
done
if [ -z "$python" ]; then
    echo '0 passed, 0 failed, 1 skipped (the Debian packages python3-pytest and python3-hypothesis are not installed)'
    exit 0
fi

# use VARIABLE CRATE: the program of the environment, by its full path, or the built one.
use() {
    local found=${!1:-$top/crates/$2/out/$2}
    if [ -x "$found" ]; then export "$1=$(realpath "$found")"; else unset "$1"; fi
}
use REGRUN regrun_main
use REGRUN_LINK regrun_link
use REGRUN_GRADE regrun_grade
use REGRUN_WAVES regrun_waves

room=$(mktemp -d) || exit 73
trap 'rm -rf "$room"' EXIT
export PYTHONPATH=$here${PYTHONPATH:+:$PYTHONPATH} PYTHONDONTWRITEBYTECODE=1
export HYPOTHESIS_STORAGE_DIRECTORY=$room/hypothesis
plugin=() spread=()
"$python" -c 'import xdist' 2> /dev/null && spread=(-n auto)
"$python" -c 'import sys; from importlib.metadata import entry_points as e
sys.exit(not any(p.name == "regrun" for p in (e().select(group="pytest11") if hasattr(e(), "select") else e().get("pytest11", []))))' ||
    plugin=(-p regrun.pytest_plugin)

# try FOLDER OPTION..: runs the tests of a folder; their results are added to those of the others.
wrong=0
try() {
    (cd "$1" && "$python" -m pytest -q -p no:cacheprovider "${plugin[@]}" "${spread[@]}" --junitxml="$room/$(basename "$1").xml" "${@:2}")
    case $? in 0 | 5) ;; *) wrong=1 ;; esac
}
try "$here/tests" "$@"
for folder in "$top"/examples/*/; do
    compgen -G "$folder/test_*.py" > /dev/null || continue
    only=()
    [ -n "${REGRUN:-}" ] || only=(--collect-only)
    [ -n "${REGRUN_LINK:-}" ] || only+=(-k 'model')
    try "${folder%/}" "${only[@]}" "$@"
done
"$python" - "$wrong" "$room"/*.xml << 'END'
import sys
import xml.etree.ElementTree as xml

total = dict.fromkeys(["tests", "failures", "errors", "skipped"], 0)
for file in sys.argv[2:]:
    for suite in xml.parse(file).getroot().iter("testsuite"):
        for key in total:
            total[key] += int(suite.get(key, 0))
failed = total["failures"] + total["errors"]
failed = failed or int(sys.argv[1])
print(f"{max(0, total['tests'] - failed - total['skipped'])} passed, {failed} failed, {total['skipped']} skipped")
sys.exit(bool(failed))
END
