#!/usr/bin/env bash
# waves.sh PROGRAM [LINK]: runs regrun_waves on each row and each example that is a session of `run`, and compares the log and the
# status, and the dump with the item lines of the log, by rows/waves.py. Where GTKWave's tools are installed, vcd2fst reads each
# dump, and what it read is compared the same way; where sigrok-cli is, it reads the pins of one bit; where Icarus Verilog is, a
# session runs over the RTL of examples/rtl too, and its own dump must have the same pins in each cycle of a transfer.
set -u
program=$(realpath "$1")
here=$(dirname "$(realpath "$0")")
rows=$here/../crates/test_rows/data
room=$(mktemp -d "${TMPDIR:-/tmp}/regrun-waves.XXXXXX") || exit 73
trap 'rm -rf "$room"' EXIT
cd "$room" || exit 73
passed=0 failed=0 skipped=0

# judge NAME COMMAND..: counts what the command comes to, and shows what it says where it fails.
judge() {
    if "${@:2}" > said 2>&1; then
        passed=$((passed + 1))
    else
        failed=$((failed + 1))
        echo "$1:"
        head -n 4 said
    fi
}

# agrees VCD LOG SESSION: the dump has the items of the log, and a scope for each map over APB.
agrees() {
    local scopes
    scopes=$(python3 "$here/waves.py" check "$1" "$2") || return
    [ "${scopes%% *}" = "$(sed '/^---$/q' "$3" | grep -oE "adapter[\"']? *= *(\"apb\"|'apb')" | wc -l)" ]
}

# converted VCD LOG SESSION: the same of what vcd2fst read.
converted() {
    vcd2fst "$1" waves.fst && fst2vcd -f waves.fst -o again.vcd && agrees again.vcd "$2" "$3"
}

# ran SESSION LOG STATUS: the program's log and status.
ran() {
    "$program" "$1" waves.vcd > log 2> messages
    [ $? = "$3" ] && cmp "$2" log && ! grep -Ev '^regrun-waves: (line [0-9]+|note|[a-z]+ [0-9]+ .*): ' messages
}

# dumped NAME SESSION LOG STATUS: a session, and its dump where it has one.
dumped() {
    judge "$1" ran "$2" "$3" "$4"
    [ -s waves.vcd ] || return
    judge "$1, the dump" agrees waves.vcd log "$2"
    if command -v vcd2fst > tools && command -v fst2vcd > tools; then
        judge "$1, read by vcd2fst" converted waves.vcd log "$2"
    else
        skipped=$((skipped + 1))
    fi
}

while read -r name status words <&3; do
    case "$words $name" in 'run rows/'*) dumped "$name" "$rows/$name.session" "$rows/$name.log" "$status" ;; esac
done 3< "$rows/rows.txt"

for session in "$here"/../examples/*.regrun; do
    name=${session%.*}
    [ ! -e "$name.words" ] || continue
    status=0
    [ ! -e "$name.status" ] || status=$(cat "$name.status")
    dumped "$(basename "$name")" "$session" "$name.log" "$status"
done

# channels: sigrok reads each pin of one bit.
channels() {
    sigrok-cli -I vcd -i waves.vcd --show > shown
    for pin in PCLK PSEL PENABLE PWRITE PREADY PSLVERR; do
        grep -q "^- $pin: logic" shown || return
    done
}

# simulated: the cycles of a session's transfers over the RTL, and over the device model.
simulated() {
    local rtl=$here/../examples/rtl
    printf 'module dump; initial begin $dumpfile("rtl.vcd"); $dumpvars(1, bench); end endmodule\n' > dump.v
    iverilog -g2005 -s bench -s dump -o bench.vvp dump.v "$rtl/bench.v" "$rtl/uart_regs.v" || return
    mkfifo answers
    "$link" "$rtl/uart.regrun" link.log < answers | vvp -n bench.vvp | grep -v --line-buffered '^VCD info' > answers || return
    python3 "$here/waves.py" cycles rtl.vcd > rtl.cycles || return
    "$program" "$rtl/uart.regrun" waves.vcd > log || return
    python3 "$here/waves.py" cycles waves.vcd > model.cycles && [ -s model.cycles ] && diff rtl.cycles model.cycles
}

"$program" "$here/../examples/uart.regrun" waves.vcd > log
if command -v sigrok-cli > tools; then
    judge 'sigrok-cli' channels
else
    skipped=$((skipped + 1))
fi
link=${2:-$(dirname "$program")/../../regrun_link/out/regrun_link}
if command -v iverilog > tools && [ -x "$link" ]; then
    judge 'Icarus Verilog' simulated
else
    skipped=$((skipped + 1))
fi

# says STATUS TEXT WORD..: a call that ends with the status, and one line on standard error that has the text.
says() {
    "$program" "${@:3}" > log 2> messages
    [ $? = "$1" ] && grep -qF -- "$2" messages && [ "$(wc -l < messages)" = 1 ]
}

session=$here/../examples/uart.regrun
judge 'no session' says 3 'missing: No such file' missing waves.vcd
judge 'no folder for the dump' says 4 'no/waves.vcd' "$session" no/waves.vcd
judge 'one word' says 6 'SESSION and VCD' "$session"
judge 'three words' says 6 'SESSION and VCD' "$session" waves.vcd more
judge 'a full disk' says 4 "/dev/full: the dump couldn't be written" "$session" /dev/full
judge 'the log of it' cmp log "$here/../examples/uart.log"

echo "$passed passed, $failed failed, $skipped skipped"
[ "$failed" = 0 ]
