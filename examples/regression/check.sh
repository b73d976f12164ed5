#!/usr/bin/env bash
# check.sh BIN: runs the regression with a built regrun, and shows that junit.py takes nothing for passed that wasn't. The
# last line is 'N passed, M failed'.
set -u
here=$(dirname "$(realpath "$0")")
REGRUN=$(realpath "$1")
export REGRUN
tmp=$(mktemp -d)
trap 'rm -rf "$tmp"' EXIT
passed=0 failed=0

# want NAME STATUS TEXT COMMAND..: the command ends with that status, and its output has a line with the text.
want() {
    local name=$1 status=$2 text=$3
    shift 3
    "$@" > "$tmp/told" 2>&1
    local code=$?
    if [ "$code" = "$status" ] && grep -qF -- "$text" "$tmp/told"; then
        passed=$((passed + 1))
    else
        failed=$((failed + 1))
        echo "$name: status $code, expected $status and '$text':"
        head -4 "$tmp/told"
    fi
}

want whole-regression 0 '5 passed, 0 failed' "$here/run.sh" -o "$tmp/out"
want junit-file 0 'tests="5" failures="0" errors="0"' cat "$tmp/out/junit.xml"

{ cat "$here/chip.toml"; printf '[[flaw]]\nkind = "stuck"\nfield = "uart.ctrl.baud"\nbit = 3\nvalue = 0\n'; } > "$tmp/wrong.toml"
want wrong-wire 1 'bring-up: 1 failing, first line 5: check uart.ctrl @apb0' "$here/run.sh" -j 1 -c "$tmp/wrong.toml" -o "$tmp/wrong"
want wrong-wire-page 0 '<tr><td>uart.ctrl<td>baud<td>' cat "$tmp/wrong/failing.html"

echo 'read nosuch' > "$tmp/typo.script"
want refused-line 1 'typo: the session is refused: refused line 1: no such name' "$here/run.sh" -o "$tmp/typo" "$tmp/typo.script"

# Nothing passes by accident: refused operations, a sequence that makes no step, and no operation at all.
printf 'reset HARD\nwrite uart.txd 0x1ffffffff\n' > "$tmp/refuses.script"
printf 'reset HARD\nseq shared *\n' > "$tmp/idle.script"
printf '# nothing\n' > "$tmp/empty.script"
each=("$tmp/refuses.script" "$tmp/idle.script" "$tmp/empty.script")
want refused-operation 1 'refuses: 1 failing, first line 2: write uart.txd' "$here/run.sh" -o "$tmp/accident" "${each[@]}"
want no-step 1 'idle: 1 failing, first line 3: seq shared *: 0 steps' "$here/run.sh" -o "$tmp/accident" "${each[@]}"
want no-operation 1 'empty: it has no operation' "$here/run.sh" -o "$tmp/accident" "${each[@]}"
want allowed-by-name 0 '3 passed, 0 failed' "$here/run.sh" -a refused:refuses -a no-steps:idle -a 'empty:emp*' -o "$tmp/accident" "${each[@]}"

# alter NAME COMMAND: the outcome of one good session, altered.
alter() {
    mkdir -p "$tmp/$1"
    cp "$tmp/out/bring-up."* "$tmp/$1/"
    (cd "$tmp/$1" && eval "$2")
    want "$1" 1 '0 passed, 1 failed' python3 "$here/junit.py" "$tmp/$1"
}
alter truncated-log 'head -n -1 bring-up.log > it; mv it bring-up.log'
alter log-cut-in-a-line 'head -c -3 bring-up.log > it; mv it bring-up.log'
alter line-lost 'sed -i "/^check/d" bring-up.log'
alter another-version 'sed -i "1i regrun 9.0" bring-up.log'
alter no-status 'rm bring-up.status'
alter status-of-a-difference 'echo 1 > bring-up.status'
alter status-of-a-full-output 'echo 4 > bring-up.status'
alter status-of-a-broken-link 'echo 7 > bring-up.status'
want broken-link-words 1 'bring-up: the link to the device broke' python3 "$here/junit.py" "$tmp/status-of-a-broken-link"
alter difference-not-counted 'sed -i "s/^\(check.*\)$/\1 differ baud/" bring-up.log'

printf '#!/bin/sh\nsleep 20\n' > "$tmp/sleeps"
chmod +x "$tmp/sleeps"
want no-end 1 "it didn't end in time" env REGRUN="$tmp/sleeps" LIMIT=1 "$here/run.sh" -o "$tmp/sleeping" "$here/scripts/buffer.script"

echo "$passed passed, $failed failed"
[ "$failed" = 0 ]
