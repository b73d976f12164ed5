#!/usr/bin/env bash
# Runs sessions over the block of uart_regs in a simulator, as it should be and with two faults (`wrong`), and compares each log
# with the one that is kept here:
#
#     bash examples/rtl/run.sh [PROGRAM]
#
# PROGRAM is a built regrun_link; without it that is regrun-link of this checkout, of where this was installed, or on PATH.
# The simulator is Icarus Verilog; with TOOL=verilator it is Verilator 5, and with TOOL=ghdl GHDL, over the block and the
# bench in VHDL. The last line counts. Where the simulator isn't installed, the script says what to install and ends with 77.
set -u
here=$(cd "$(dirname "$(realpath "$0")")" && pwd)
program=${1:-}
for each in "$here/../../regrun-link" "$here/../../../../bin/regrun-link" regrun-link; do
    [ -n "$program" ] || ! command -v "$each" > /dev/null || program=$(command -v "$each")
done
[ -x "$program" ] || { echo "examples/rtl/run.sh: ${program:-regrun-link} is not found" >&2; exit 69; }
program=$(realpath -s "$program")
tool=${TOOL:-iverilog}
case $tool in
    iverilog | verilator | ghdl) ;;
    *) echo "examples/rtl/run.sh: TOOL is iverilog, verilator or ghdl, and not $tool" >&2; exit 64 ;;
esac
if ! command -v "$tool" > /dev/null; then
    echo "examples/rtl/run.sh: $tool is not found; install the Debian package $tool" >&2
    exit 77
fi
room=$(mktemp -d "${TMPDIR:-/tmp}/regrun-rtl.XXXXXX") || exit 73
trap 'rm -rf "$room"' EXIT
mkfifo "$room/answers"
passed=0 failed=0

# starts NAME COMMAND..: makes the program NAME, which runs the command.
starts() {
    printf '#!/bin/sh\nexec %s\n' "${*:2}" > "$room/$1"
    chmod +x "$room/$1"
}

# build NAME FAULTS: makes a simulation of the block and its bench, the program NAME.
build() {
    local define=() sources=("$here/bench.v" "$here/uart_regs.v")
    [ "$2" = false ] || define=(-DWRONG)
    case $tool in
        verilator)
            verilator --binary -Wno-fatal --top-module bench -Mdir "$room/$1.dir" -o "$room/$1" "${define[@]}" \
                "${sources[@]}" > "$room/said" 2>&1 || { cat "$room/said"; exit 1; }
            ;;
        ghdl)
            ghdl -a --std=08 --workdir="$room" "$here/uart_regs.vhd" "$here/bench.vhd" || exit 1
            (cd "$room" && ghdl -e --std=08 --workdir="$room" bench) || exit 1
            starts "$1" ghdl -r --std=08 --workdir="'$room'" bench -gwrong="$2"
            ;;
        *)
            iverilog -g2005 -o "$room/$1.vvp" "${define[@]}" "${sources[@]}" || exit 1
            starts "$1" vvp -n "'$room/$1.vvp'"
            ;;
    esac
}

# try SESSION BENCH LOG STATUS: runs a session on a bench, with a pipe each way, and compares what comes of it.
try() {
    "$program" "$here/$1.regrun" "$room/log" < "$room/answers" | "$room/$2" > "$room/answers"
    local status=${PIPESTATUS[0]}
    if diff -u "$here/$3.log" "$room/log" > "$room/differ" && [ "$status" = "$4" ]; then
        passed=$((passed + 1))
    else
        failed=$((failed + 1))
        echo "$1 on the $2 block: status $status, and $4 is wanted"
        head -n 12 "$room/differ"
    fi
    grep ' differ' "$room/log"
}

build right false
build wrong true
try uart right uart 0
try maps right maps 0
try uart wrong uart-wrong 1
try maps wrong maps-wrong 1
echo "$passed passed, $failed failed"
[ "$failed" = 0 ]
