#!/usr/bin/env bash
# link.sh LINK [RUN GRADE WAVES]: what regrun_link does where something goes wrong: the peer's answers, the files, the words.
# Each case has what is answered, the status, and what the message or the log says. Then one description for all programs, in
# which each register has a backdoor. Then a session of 1,000 lines over a block that behaves badly (link/rough.v,
# link/rough.vhd), on each of Icarus Verilog, GHDL and Verilator that is installed.
set -u
program=$(realpath "$1")
others=()
for other in "${@:2}"; do others+=("$(realpath "$other")"); done
here=$(cd "$(dirname "$(realpath "$0")")" && pwd)
room=$(mktemp -d "${TMPDIR:-/tmp}/regrun-link.XXXXXX") || exit 73
trap 'rm -rf "$room"' EXIT
cd "$room" || exit 73
passed=0 failed=0

# describe REST..: a description of a register, and what follows it.
describe() {
    printf '[[reg]]\nname = "ctrl"\nbytes = 4\n'
    printf 'field = [{ name = "value", lsb = 0, width = 32, policy = "RW", reset = 0, volatile = true }]\n'
    printf '[[map]]\nname = "bus"\nbytes = 4\n[[place]]\nmap = "bus"\nitem = "ctrl"\n'
    printf '%b' "$@"
}

# judge NAME STATUS WANT FILE: the status, and whether the file has the text.
judge() {
    if [ "$status" = "$2" ] && grep -qF -- "$3" "$4"; then
        passed=$((passed + 1))
    else
        failed=$((failed + 1))
        echo "$1: status $status, and $2 with \`$3\` is wanted"
        cat "$4"
    fi
}

# alike NAME WANT FILE: whether two files are the same.
alike() {
    if cmp "$2" "$3"; then
        passed=$((passed + 1))
    else
        failed=$((failed + 1))
        echo "$1 differs"
    fi
}

# answer NAME STATUS WANT ANSWERS FILE: one read, what the peer says to it, and what the file of messages or the log has.
answer() {
    describe '---\nread ctrl\n' > session
    printf '%b' "$4" | "$program" session log > requests 2> messages
    status=$?
    judge "$1" "$2" "$3" "${5:-messages}"
}

# refused NAME WANT REST: a session that is refused before anything is sent.
refused() {
    describe "$3" > session
    "$program" session log < /dev/null > requests 2> messages
    status=$?
    judge "$1" 2 "$2" log
    [ ! -s requests ] || { failed=$((failed + 1)); echo "$1: something was sent"; }
}

answer 'the peer ends' 7 'line 1 of the peer'\''s output: the output ended before an answer' ''
answer 'half an answer' 7 'the output ended before an answer' 'ok 0x1'
answer 'letters' 7 'a line that doesn'\''t answer the request: `ok 0xgg`; the request was `r bus 0x0 0x0 1111 #0`' '# hello\nok 0xgg\n'
answer 'a break is in the log' 7 '# the link broke at line 2 of the peer'\''s output: a line that doesn'\''t answer the request: `ok 0xgg`; the request was `r bus 0x0 0x0 1111 #0`' '# hello\nok 0xgg\n' log
answer 'an unknown value' 1 'an unknown value at line 2 of the peer'\''s output: `ok 0x0000xxxx`; the request was `r bus 0x0 0x0 1111 #0`' '\nok 0x0000xxxx\n'
answer 'an unknown value fails the item' 1 'read ctrl @bus: bus error at word 0' 'ok 0xX\n' log
answer 'nothing drives it' 1 'an unknown value at line 1' 'ok zzzzzzzz\n'
answer 'too wide a word' 7 'a word that is wider than the bus: `ok 0x100000000`' 'ok 0x100000000\n'
answer 'an answer of a write' 7 'a line that doesn'\''t answer' 'ok\n'
answer 'an answer twice' 7 'an answer that nothing was asked for: `ok 2`' 'ok 1\nok 2\n'
answer 'no line end' 7 'a line of more than 4096 bytes' "$(head -c 10000 /dev/zero | tr '\0' o)"
answer 'a bus error' 1 'read ctrl @bus: bus error at word 0' 'error\n' log
answer 'nothing there' 1 'read ctrl @bus: bus error at word 0' 'none\n' log
answer 'white space' 0 'read ctrl @bus: ok 0x00000012' '\n# a\n \t\r\n  ok  0x12 \r\n# b\n' log
answer 'chatter' 0 'peer: UVM_INFO @ 156: okay' 'okay\nUVM_INFO @ 156: okay\nerrors: none\nok 0x12\n'
answer 'much chatter' 0 'read ctrl @bus: ok 0x00000012' "$(yes chatter | head -n 9999)\nok 0x12\n" log
answer 'too much chatter' 7 'line 10001 of the peer'\''s output: 10000 lines that are no answer' "$(yes chatter | head -n 10000)\nok 0x12\n"

# peer ANSWER..: answers each request by the next of these. Then it only reads.
peer() {
    local answer line
    : > requests
    for answer in "$@"; do
        IFS= read -r line || return
        printf '%s\n' "$line" >> requests
        printf '%b\n' "$answer"
    done
    cat >> requests
}

# converse ANSWER..: the session with such a peer.
converse() {
    mkfifo answers
    timeout 20 "$program" session log < answers 2> messages | peer "$@" > answers
    status=${PIPESTATUS[0]}
    rm answers
}

describe '---\nreset SOFT\nread ctrl\n' > session
converse none 'ok 1'
judge 'a reset that is not done' 1 '# not done: `reset SOFT`; the answer was `none`' log
judge 'an item behind it' 1 'read ctrl @bus: ok 0x00000001' log
describe '---\nhw ctrl.value 0x1f\nread ctrl\n' > session
converse none 'ok 1'
judge 'a change that is not done' 1 '# not done: `hw ctrl.value 0x1f`; the answer was `none`' log
describe '---\nread ctrl\nread ctrl\nread ctrl\n' > session
converse 'ok 1' 'error 7' ok
judge 'items after a break' 7 'bus error at word 0' log
judge 'the last request' 7 '#1' requests
judge 'nothing sent after a break' 7 'the request was `r bus 0x0 0x0 1111 #1`' messages

# look ANSWER..: a peer that answers the next requests so, and hangs at the one behind them. It looks at the log, and ends.
look() {
    local answer
    for answer in "$@"; do
        read -r _ || return
        printf '%b\n' "$answer"
    done
    read -r _ && cp log seen
}

# A sequence over five registers, of which three are answered.
{
    for name in a b c d e; do
        printf '[[reg]]\nname = "%s"\nbytes = 4\nbackdoor = false\n' "$name"
        printf 'field = [{ name = "value", lsb = 0, width = 32, policy = "RW", reset = 0 }]\n'
    done
    printf '[[map]]\nname = "bus"\nbytes = 4\n'
    offset=0
    for name in a b c d e; do
        printf '[[place]]\nmap = "bus"\nitem = "%s"\noffset = %d\n' "$name" "$offset"
        offset=$((offset + 4))
    done
    printf -- '---\nread a\nseq hw-reset *\n'
} > session
: > seen
mkfifo answers
timeout 20 "$program" session log < answers 2> messages | look 'ok 1' ok 'ok 0' 'ok 0' 'ok 0' > answers
status=${PIPESTATUS[0]}
rm answers
tail -n 8 seen > shown
judge 'a peer that hangs: the line before' 7 'read a @bus: ok 0x00000001' seen
judge 'a peer that hangs: the sequence' 7 'seq hw-reset *: begin' shown
judge 'a peer that hangs: the first access' 7 '  bus r 0x0 0x00000000 1111 #1 ok' shown
tail -n 1 seen > shown
judge 'a peer that hangs: the last access' 7 '  bus r 0x8 0x00000000 1111 #3 ok' shown
sed -n '/^# the link broke/,$p' log > shown
judge 'a break within a sequence' 7 'check d @bus: bus error at word 0' shown
grep -c '#[0-9]* ok$' shown > behind
judge 'nothing is answered behind a break' 7 0 behind

describe '---\nhw ctrl.value 0x1f\n' > session
printf 'ok\n' | "$program" session log > requests 2> messages
status=$?
judge 'a change by the hardware' 0 'hw ctrl.value 0x1f' requests

refused 'a flaw' 'refused description flaw 1: no flaws over a link' '[[flaw]]\nkind = "error-nth"\nnth = 1\n---\n'
refused 'a description' 'refused description map 2: missing key bytes' '[[map]]\nname = "x"\n---\n'
refused 'no separator' 'refused session: no separator' ''

# closed NAME LINE WANT [FILE]: a line that goes by a backdoor, which nothing has over a link, sends nothing.
closed() {
    describe '[[mem]]\nname = "ram"\nbytes = 4\nsize = 4\n[[place]]\nmap = "bus"\nitem = "ram"\noffset = 16\n' "---\n$2\n" > session
    "$program" session log < /dev/null > requests 2> messages
    status=$?
    judge "$1" 0 "$3" "${4:-log}"
    [ ! -s requests ] || { failed=$((failed + 1)); echo "$1: something was sent"; }
}

closed 'a peek' 'peek ctrl' 'peek ctrl: refused no backdoor'
closed 'a deposit' 'poke ctrl 1' 'poke ctrl 0x1: refused no backdoor'
closed 'a write by the backdoor' 'back-write ctrl 1' 'back-write ctrl 0x1: refused no backdoor'
closed 'a check by the backdoor' 'back-check ctrl' 'back-check ctrl: refused no backdoor'
closed 'a peek of a memory' 'mem-peek ram 0' 'mem-peek ram 0x0: refused no backdoor'
closed 'a deposit into a memory' 'mem-poke ram 0 1' 'mem-poke ram 0x0 0x1: refused no backdoor'
closed 'a sequence by the backdoor' 'seq access *' 'seq access *: 0 steps, 0 differences, 0 bus errors'
closed 'a sequence that made no step' 'seq access *' 'regrun-link: note: seq access * made no step' messages

# One description for all programs. The peer answers as the device model does, so the log is that of `run`.
uart=$here/../examples/uart
cp "$uart.regrun" session
mapfile -t said < <(sed -n 's/^reset [^:]*: ok$/ok/p; s/^hw .*/ok/p; s/^  apb0 r [^ ]* \([^ ]*\) .*/ok \1/p; s/^  apb0 w .*/ok/p' "$uart.log")
converse "${said[@]}"
judge 'a description with backdoors' 0 'end: 13 events' log
alike 'its log' "$uart.log" log
if [ "${#others[@]}" = 3 ]; then
    "${others[0]}" run < "$uart.regrun" > log 2> messages
    alike 'the description in run' "$uart.log" log
    "${others[0]}" map < "$uart.regrun" > log 2> messages
    status=$?
    judge 'the description in map' 0 'uart.ctrl' log
    "${others[1]}" run < "$uart.regrun" > log 2> messages
    alike 'the description in regrun-grade' "$uart.grade" log
    "${others[2]}" "$uart.regrun" dump > log 2> messages
    alike 'the description in regrun-waves' "$uart.log" log
fi

"$program" missing log < /dev/null > requests 2> messages
status=$?
judge 'no session' 3 'missing' messages
describe '---\n' > session
"$program" session no/log < /dev/null > requests 2> messages
status=$?
judge 'no log' 4 'no/log' messages
"$program" session < /dev/null > requests 2> messages
status=$?
judge 'one word' 6 'SESSION' messages
describe '---\nread ctrl\n' > session
printf 'ok 1\n' | "$program" session /dev/full > requests 2> messages
status=$?
judge 'a full disk' 4 'r bus' requests

# rough_session: a session of 1,000 lines.
rough_session() {
    local name offset=0 k
    for name in plain unset slow hung unsure; do
        printf '[[reg]]\nname = "%s"\nbytes = 4\n' "$name"
        printf 'field = [{ name = "value", lsb = 0, width = 32, policy = "RW", reset = 0, volatile = true, compare = true }]\n'
    done
    printf '[[map]]\nname = "apb"\nbytes = 4\nadapter = "apb"\n'
    for name in plain unset slow hung unsure; do
        printf '[[place]]\nmap = "apb"\nitem = "%s"\noffset = %d\n' "$name" "$offset"
        offset=$((offset + 4))
    done
    printf -- '---\nreset HARD\n'
    for k in $(seq 199); do
        printf 'write plain %d\ncheck plain\nread unset\nread slow\ncheck plain\n' "$k"
    done
    printf 'read hung\nread unsure\nhw plain.value 1\nreset SOFT\n'
}

# rough TOOL ERRORS COMMAND..: runs it over a simulation, and judges what the log and the messages say.
rough() {
    mkfifo answers
    timeout 100 "$program" session log < answers 2> messages | timeout 100 "${@:3}" > answers
    status=${PIPESTATUS[0]}
    rm answers
    judge "$1: the session" 1 "0 differences, $2 bus errors" log
    judge "$1: what is printed" 1 'peer: UVM_INFO @ ' messages
    judge "$1: a slow block" 1 'read slow @apb: ok 0x00000005' log
    judge "$1: a hanging block" 1 'read hung @apb: bus error at word 0' log
    judge "$1: why it hangs" 1 'peer: # PREADY is ' messages
    judge "$1: a change that is not done" 1 '# not done: `hw plain.value 0x1`; the answer was `none`' log
    judge "$1: a reset that is not done" 1 '# not done: `reset SOFT`; the answer was `none`' log
    if [ "$2" = 201 ]; then
        judge "$1: unknown values" 1 'of the peer'\''s output: `ok 0x' messages
        judge "$1: an unknown PSLVERR" 1 'peer: # PSLVERR is ' messages
    fi
}

# compiles TOOL WORD..: whether the simulator is there and this goes well. Where it is there and doesn't, that is a failure.
compiles() {
    command -v "$1" > /dev/null || return
    "$@" > said 2>&1 && return
    echo "link: $1 doesn't compile the bench:"
    tail -n 5 said
    failed=$((failed + 1))
    return 1
}

bench=$here/../examples/rtl
rough_session > session
if compiles iverilog -g2005 -o rough.vvp "$bench/bench.v" "$here/link/rough.v"; then
    rough 'Icarus Verilog' 201 vvp -n rough.vvp
    judge 'Icarus Verilog: its dump' 1 'peer: VCD info: dumpfile rough.vcd opened for output.' messages
fi
if compiles ghdl -a --std=08 "$here/link/rough.vhd" "$bench/bench.vhd" && compiles ghdl -e --std=08 bench; then
    rough GHDL 201 ghdl -r --std=08 bench --vcd=rough.vcd
fi
# Verilator has no unknown values: what has none here is 0.
if compiles verilator --binary --trace -Wno-fatal --top-module bench -Mdir rough.dir -o "$room/rough" \
    "$bench/bench.v" "$here/link/rough.v"; then
    rough Verilator 1 ./rough
fi

echo "$passed passed, $failed failed"
[ "$failed" = 0 ]
