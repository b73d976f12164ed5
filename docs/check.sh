#!/usr/bin/env bash
# check.sh: docs/index.html, detection.svg and DEFINITIONS.md are what their scripts make, and the tables of ARCHITECTURE.md name
# the files that there are. check.sh GRADE: the tables of DETECTION.md are
# what bench/detection.py makes with this regrun-grade; with a trial (TRIAL in the environment) the last table alone.
# The last line is 'N passed, M failed'.
set -u
cd "$(dirname "$(realpath "$0")")" || exit 73
passed=0 failed=0

# same NAME COMMAND..: whether a command prints what standard input has.
same() {
    if cmp - <("${@:2}"); then passed=$((passed + 1)); else failed=$((failed + 1)) && echo "$1"; fi
}

# page: the page of the logs of some examples.
page() {
    local each=() name
    for name in wrong-reset wiring-flaw missing-word uart; do each+=("$name.regrun" "$name.log"); done
    (cd ../examples && python3 ../docs/page.py "${each[@]}")
}

# diagram: the drawing of the tables.
diagram() { python3 detection.py < DETECTION.md; }

# The part of DETECTION.md that is made, or its last table, with the line before it.
tables() { sed '1,/^<!-- What follows is made by/d' DETECTION.md; }
last_table() { echo && sed -n '/^### Memories/,$p' DETECTION.md; }

if [ $# = 0 ]; then
    same index.html page < index.html
    same detection.svg diagram < detection.svg
    same DEFINITIONS.md python3 definitions.py < DEFINITIONS.md
    if python3 where.py; then passed=$((passed + 1)); else failed=$((failed + 1)); fi
elif [ -n "${TRIAL:-}" ]; then
    same DETECTION.md python3 ../bench/detection.py "$1" memories < <(last_table)
else
    same DETECTION.md python3 ../bench/detection.py "$1" < <(tables)
fi
echo "$passed passed, $failed failed"
[ "$failed" = 0 ]
