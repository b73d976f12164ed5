#!/usr/bin/env bash
# words.sh REGRUN LINK WAVES GRADE PLAN: what the programs say on standard error of sessions that are refused, of some that aren't
# meant so, and where input and output fail. Each case changes one session; what is said was written by hand from its text. The
# last line is 'N passed, M failed'.
# shellcheck disable=SC2016 # what is said has backticks
set -u
programs=("$@")
tmp=$(mktemp -d)
trap 'rm -rf "$tmp"' EXIT
passed=0 failed=0

# The session, without its script: 42 lines, the separator among them. Its lines are numbered by tens.
cat > "$tmp/chip" << 'CHIP'
[[block]]
name = "uart"

[[file]]
name = "bank"
of = "uart"

[[reg]]
name = "ctrl"
of = "uart"
bytes = 4
[[reg.field]]
name = "en"
lsb = 0
width = 1
policy = "RW"
reset = { HARD = 1, SOFT = 0 }

[[reg]]
name = "stat"
of = "uart.bank"
bytes = 4
field = [
  { name = "busy", lsb = 0, width = 1, policy = "RO", volatile = true },
  { name = "error", lsb = 1, width = 1, policy = "W1C" },
]

[[mem]]
name = "ram"
bytes = 4
size = 16

[[map]] # the bus
name = "apb0"
bytes = 4
adapter = "apb"
predict = "explicit"

[[place]]
map = "apb0"
item = "uart.ctrl"
---
CHIP

# run NAME: runs the session of that name by a program; what it said is in said.
run() {
    case $program in
        0) "${programs[0]}" run < "$1" ;;
        1) "${programs[1]}" "$1" "$tmp/log" < /dev/null ;;
        2) "${programs[2]}" "$1" "$tmp/vcd" ;;
        3) "${programs[3]}" run < "$1" ;;
        weave) "${programs[0]}" weave 1 < "$1" ;;
        map) "${programs[0]}" map < "$1" ;;
    esac > "$tmp/out" 2> "$tmp/said"
}

# judge CASE EXPECTED: whether exactly that was said.
judge() {
    if [ "$(cat "$tmp/said")" = "$2" ]; then
        passed=$((passed + 1))
    else
        failed=$((failed + 1))
        printf 'words: %s: said\n%s\nnot\n%s\n' "$1" "$(cat "$tmp/said")" "$2"
    fi
}

# line SCRIPT EXPECTED: the session with this script.
line() {
    { cat "$chip" && printf '%b' "$1"; } > "$tmp/session"
    run "$tmp/session"
    judge "$1" "$2"
}

# text OLD NEW EXPECTED: the session with the first such text of its description replaced.
text() {
    OLD=$1 NEW=$2 python3 - "$tmp/chip" > "$tmp/session" << 'P'
import os, sys
old, new = (os.environ[it].encode().decode("unicode_escape") for it in ("OLD", "NEW"))
chip = open(sys.argv[1]).read()
assert old in chip, old
sys.stdout.buffer.write(chip.replace(old, new, 1).encode("latin-1") + b"read uart.ctrl\n")
P
    run "$tmp/session"
    judge "$1 -> $2" "$3"
}

program=0 chip=$tmp/chip
# The line of the file, the wrong word, and the name that is near.
line 'read uart.ctrl\n' ''
line 'read uart.ctrl\nread uart.ctlr\n' 'regrun: line 44: no such name: uart.ctlr (uart.ctrl?)'
line 'read nothing.like.it\n' 'regrun: line 43: no such name: nothing.like.it'
line 'read uart.ctrl.en\n' 'regrun: line 43: no such name: uart.ctrl.en is a field, and a register is asked for'
line 'seq access uart.bank\n' 'regrun: line 43: no such name: uart.bank is a register file, and a block is asked for'
line 'mem-read uart.ctrl 1\n' 'regrun: line 43: no such name: uart.ctrl is a register, and a memory is asked for'
line 'read uart.stat\n' 'regrun: line 43: no such name: uart.stat (uart.ctrl?)'
line 'read uart.state\n' 'regrun: line 43: no such name: uart.state'
line 'set uart.bank.stat.eror 1\n' 'regrun: line 43: no such name: uart.bank.stat.eror (uart.bank.stat.error?)'
line 'read uart.ctrl @apb\n' 'regrun: line 43: no such name: apb (apb0?)'
line 'reset soft\n' 'regrun: line 43: no such name: soft (SOFT?)'
line 'raed uart.ctrl\n' 'regrun: line 43: no such command: raed (read?)'
line 'READ uart.ctrl\n' 'regrun: line 43: no such command: READ (read?)'
line 'frobnicate\n' 'regrun: line 43: no such command: frobnicate'
line 'seq acess *\n' 'regrun: line 43: no such command: acess (access?)'
line 'seq\n' 'regrun: line 43: no such command: seq takes NAME BLOCK'
line '# one\n\nwrite uart.ctrl\n' 'regrun: line 45: wrong count: write takes REG V [@MAP]'
line 'mem-check ram 1 2 3 @apb0\n' 'regrun: line 43: wrong count: mem-check takes MEM K V [@MAP]'
line 'write uart/ctrl 1\n' 'regrun: line 43: bad name: uart/ctrl'
line 'write uart.ctrl 1 @a-b\n' 'regrun: line 43: bad name: @a-b'
line 'reset a.b\n' 'regrun: line 43: bad name: a.b'
line 'write uart.ctrl 12h # a comment\n' 'regrun: line 43: bad number: 12h'
line 'set uart.ctrl.en @apb0\n' 'regrun: line 43: bad number: @apb0'
line 'write uart.ctrl 0x10000000000000000\n' 'regrun: line 43: number too large: 0x10000000000000000'
line 'burst-read ram 0 257\n' 'regrun: line 43: count out of range: 257'
line 'read uart.ctrl # \xe2\x80\x9c\n' 'regrun: line 43: not ascii: byte 18 is 0xe2'
line 'read uart.ctrl\r\nread uart.ctl\r\n' 'regrun: line 44: no such name: uart.ctl (uart.ctrl?)'
line 'read uart.ctl' 'regrun: line 43: no such name: uart.ctl (uart.ctrl?)'
# Of a long script the last lines are at hand.
line "$(for _ in $(seq 3000); do printf 'read uart.ctrl\\n'; done)red uart.ctrl\\n" 'regrun: line 3043: no such command: red (read?)'
line "$(for _ in $(seq 3000); do printf 'read uart.ctrl\\n'; done)read uart.crtl\\n" 'regrun: line 3043: no such name: uart.crtl (uart.ctrl?)'
line "$(printf 'x%.0s' $(seq 4097))\\n" 'regrun: line 43: too long'

# The row, its name, its line, and the wrong word.
text 'width = 1' 'widht = 1' 'regrun: line 15: reg 1 (ctrl) field 1 (en): unknown key: widht (width?)'
text 'volatile = true' 'volitile = true' 'regrun: line 24: reg 2 (stat) field 1 (busy): unknown key: volitile (volatile?)'
text '"W1C"' '"w1c"' 'regrun: line 25: reg 2 (stat) field 2 (error): bad value of policy: w1c (W1C?)'
text '"RW"' '"RWX"' 'regrun: line 16: reg 1 (ctrl) field 1 (en): bad value of policy: RWX (RW?)'
text '"RW"' '1' 'regrun: line 16: reg 1 (ctrl) field 1 (en): wrong type of policy: 1'
text 'width = 1' 'width = -1' 'regrun: line 15: reg 1 (ctrl) field 1 (en): bad value of width: -1'
text 'width = 1' 'width = 33' 'regrun: line 12: reg 1 (ctrl) field 1 (en): field outside'
text 'width = 1\n' '' 'regrun: line 12: reg 1 (ctrl) field 1 (en): missing key width'
text '"ctrl"' '"cs[0]"' 'regrun: line 9: reg 1 (cs[0]): bad name: cs[0]'
text '"uart.bank"' '"uart.bnak"' 'regrun: line 21: reg 2 (stat): no such parent: uart.bnak (uart.bank?)'
text 'name = "ram"' 'name = "uart"' 'regrun: line 29: mem 1 (uart): duplicate name: uart'
text 'size = 16' 'size = 0' 'regrun: line 31: mem 1 (ram): bad size: 0'
text 'size = 16' 'size = 16\nskip = ["NO_MEM_WALK_TST"]' 'regrun: line 32: mem 1 (ram): bad value of skip: NO_MEM_WALK_TST (NO_MEM_WALK_TEST?)'
text '"apb"' '"abp"' 'regrun: line 36: map 1 (apb0): no such adapter: abp (apb?)'
text 'map = "apb0"' 'map = "apb1"' 'regrun: line 40: place 1 (uart.ctrl): no such map: apb1 (apb0?)'
text 'item = "uart.ctrl"' 'item = "uart.ctr"' 'regrun: line 41: place 1 (uart.ctr): no such item: uart.ctr (uart.ctrl?)'
text 'item = "uart.ctrl"' 'item = "uart.ctrl"\noffset = 2' 'regrun: line 42: place 1 (uart.ctrl): unaligned: 2'
text '[[place]]' '[[flaw]]\nkind = "stuck"\nfield = "uart.ctrl.ne"\nbit = 0\nvalue = 1\n[[place]]' 'regrun: line 41: flaw 1 (stuck): bad flaw: uart.ctrl.ne (uart.ctrl.en?)'
text '[[mem]]' '[mem]' 'regrun: line 28: wrong type of mem'
text '[[mem]]' '[[mems]]' 'regrun: line 28: unknown key: mems (mem?)'

# A description that is no TOML.
text '"uart"' '"uart' 'regrun: line 2: not toml: invalid string'
text 'size = 16' 'size = 16\nsize = 17' 'regrun: line 32: not toml: duplicate key'
text '[[mem]]' '[[mem]' 'regrun: line 28: not toml: unclosed array table, expected `]]`'
text 'size = 16' 'size = 0xffffffffffffffff' 'regrun: line 31: not toml: 0xffffffffffffffff is above 2^63-1, the largest integer of TOML; write it as a text, in quotes'
text 'size = 16' 'size = 9223372036854775808' 'regrun: line 31: not toml: 9223372036854775808 is above 2^63-1, the largest integer of TOML; write it as a text, in quotes'
text '# the bus' '# the b\xfcs' 'regrun: line 33: not toml: bytes that are no UTF-8'
text '---\n' '--- \n' 'regrun: line 42: no separator: this line isn'\''t exactly `---`'

# Sessions that are run, and may not be meant so.
text 'HARD = 1' 'hard = 1' 'regrun: note: line 17: the reset kind hard is another one than HARD'
line '\n# nothing\n' 'regrun: note: the script has no operation'
line 'seq shared *\nread uart.ctrl\nseq mem-walk uart' $'regrun: note: seq shared * made no step\nregrun: note: seq mem-walk uart made no step'

# The other words, and the other programs.
program=map
text 'width = 1' 'widht = 1' 'regrun: line 15: reg 1 (ctrl) field 1 (en): unknown key: widht (width?)'
line '' ''
program=weave
line 'other-write uart.ctrl 1\n' ''
line 'other-write uart.ctrl 1\nother-read uart.ctr\n' 'regrun: line 44: no such name: uart.ctr (uart.ctrl?)'
line 'read uart.ctrl\n' 'regrun: line 43: not woven'
program=1
line 'raed a\n' 'regrun-link: line 43: no such command: raed (read?)'
line 'seq shared *\n' 'regrun-link: note: seq shared * made no step'
# Over a link nothing has a backdoor.
line 'seq access *\n' 'regrun-link: note: seq access * made no step'
text 'width = 1' 'widht = 1' 'regrun-link: line 15: reg 1 (ctrl) field 1 (en): unknown key: widht (width?)'
program=2
line 'read uart.ctrl\nraed uart.ctrl\n' 'regrun-waves: line 44: no such command: raed (read?)'
line 'seq shared *\n' 'regrun-waves: note: seq shared * made no step'
program=3
line 'read uart.ctrl\nraed uart.ctrl\n' 'regrun-grade: line 44: no such command: raed (read?)'

# By hand: each line's log comes before the next line is typed, and a session that comes in small pieces is told of all the same.
if python3 - "${programs[0]}" "$tmp/chip" > "$tmp/said" 2>&1 << 'P'
import subprocess, sys
streams = dict.fromkeys(("stdin", "stdout", "stderr"), subprocess.PIPE)
with subprocess.Popen([sys.argv[1], "run"], bufsize=0, **streams) as it:
    session = open(sys.argv[2], "rb").read() + b"read uart.ctrl\n"
    for place in range(0, len(session), 7):
        it.stdin.write(session[place:place + 7])
    log = [it.stdout.readline() for _ in range(2)]
    assert log[0].startswith(b"read uart.ctrl @apb0: ok"), log
    for piece in (b"read ua", b"rt.ct", b"lr\n"):
        it.stdin.write(piece)
    it.stdin.close()
    assert it.stdout.read() == b"refused line 2: no such name\n"
    assert it.stderr.read() == b"regrun: line 44: no such name: uart.ctlr (uart.ctrl?)\n"
P
then : > "$tmp/said"; fi
judge 'by hand' ''

# fault STATUS EXPECTED COMMAND..: where the log can't say how the call ended.
fault() {
    "${@:3}" 2> "$tmp/said"
    local status=$?
    [ "$status" = "$1" ] || echo "status $status" >> "$tmp/said"
    judge "${*:3}" "$2"
}
{ cat "$tmp/chip" && echo 'read uart.ctrl'; } > "$tmp/session"
regrun=${programs[0]} link=${programs[1]} waves=${programs[2]} grade=${programs[3]} plan=${programs[4]}
fault 3 "regrun: the input couldn't be read" "$regrun" run < /
fault 4 "regrun: the output couldn't be written" "$regrun" run < "$tmp/session" > /dev/full
fault 4 "regrun: the output couldn't be written" "$regrun" soak 1 < /dev/null > /dev/full
fault 3 "regrun-grade: the input couldn't be read" "$grade" run < /
fault 4 "regrun-grade: the output couldn't be written" "$grade" run < "$tmp/session" > /dev/full
fault 3 "regrun-grade: the input couldn't be read" "$grade" add < /
fault 3 "regrun-plan: the input couldn't be read" "$plan" < /
fault 4 "regrun-plan: the output couldn't be written" "$plan" < "$tmp/session" > /dev/full
fault 3 "regrun-waves: the input couldn't be read" "$waves" / "$tmp/vcd"
fault 4 "regrun-waves: the output couldn't be written" "$waves" "$tmp/session" "$tmp/vcd" > /dev/full
fault 3 "regrun-link: the input couldn't be read" "$link" / "$tmp/log" < /dev/null
too_large='regrun: `run` or `map` is asked for, or `soak N` or `weave N` with N below 2^64, and a session on standard input'
fault 6 "$too_large" "$regrun" soak 18446744073709551616
fault 6 "$too_large" "$regrun" weave 0x10000000000000000 < "$tmp/session"
fault 6 "regrun: a word isn't UTF-8" "$regrun" run $'\xff'

echo "$passed passed, $failed failed"
[ "$failed" = 0 ]
