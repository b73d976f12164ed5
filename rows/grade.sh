#!/usr/bin/env bash
# grade.sh GRADE PROGRAM [PART]: what regrun_grade does. The grades of two examples; the grades and the flaws that aren't found of
# further sessions beside those of bench/grade.py, which runs the other program once for each flaw; shares that add up to the
# whole, and how others are refused; flaws that are waived, and how files of them are refused; the lines that find flaws, by
# scripts that are cut off; the object in JSON beside the other texts; bounds; refusals and wrong words with their statuses; rows
# of missed flaws and of hidden ones, with each of which a session shows nothing new; and rows of hidden ones with each of which
# the log is the same. With the part `beside`, only what stands beside bench/grade.py is tried; with `texts`, all else.
set -u
grade=$(realpath "$1")
program=$(realpath "$2")
part=${3:-}
here=$(dirname "$(realpath "$0")")
top=$here/..
rows=$top/crates/test_rows/data/rows
room=$(mktemp -d "${TMPDIR:-/tmp}/regrun-grade.XXXXXX") || exit 73
trap 'rm -rf "$room"' EXIT
cd "$room" || exit 73
passed=0 failed=0 skipped=0
# With each flaw alone, but on a trial (TRIAL in the environment) many flaws a run; and where a check runs the program once for
# each row or each byte, a trial takes each eighth and counts the others as skipped.
alone=yes every=1
[ -z "${TRIAL:-}" ] || { alone='' every=8; }

# judge NAME COMMAND..: counts what the command comes to, and shows what it says where it fails.
judge() {
    if "${@:2}" > said 2>&1; then
        passed=$((passed + 1))
    else
        failed=$((failed + 1))
        echo "$1:"
        head -n 4 said
    fi
}

# grades WORDS SESSION WANT: the output of a grading, its status, and that there is no message but notes.
grades() {
    # shellcheck disable=SC2086
    "$grade" $1 < "$2" > out 2> messages
    [ $? = 0 ] && ! grep -v '^regrun-grade: note: ' messages && cmp "$3" out
}

# beside WORD SESSION: the same beside bench/grade.py, with each flaw alone.
beside() {
    ALONE=$alone python3 "$top/bench/grade.py" "$program" "$1" < "$2" > want && grades "$1" "$2" want
}

# sums STATUS LINE WORDS..: what `add` makes of the texts on standard input.
sums() {
    "$grade" add "${@:3}" > out 2> messages
    [ $? = "$1" ] && [ ! -s messages ] && printf '%s\n' "$2" | cmp - out
}

# adds WORD SESSION: four shares in another order add up to the last line of the whole.
adds() {
    local k
    for k in 3 1 4 2; do
        "$grade" "$1" "$k/4" < "$2" || return
    done > shares
    sums 0 "$("$grade" run < "$2" | tail -n 1)" < shares
}

# of_these STATUS LINE FILES [WORDS..]: what `add` makes of these files, one behind the other.
of_these() {
    # shellcheck disable=SC2086
    cat $3 | sums "$1" "$2" "${@:4}"
}

# is_cut SHARE NEXT: the share 2/4 cut off anywhere is refused, with the next behind it and without. Only its last end of line
# may lack where nothing is behind.
is_cut() {
    local at size text
    size=$(wc -c < "$1")
    for ((at = size - 1; at > 0; at--)); do
        [ $(((size - 1 - at) % every)) = 0 ] || { skipped=$((skipped + 1)) && continue; }
        head -c "$at" "$1" > part
        cat part "$2" > both
        for text in both part; do
            [ "$text" = both ] || [ "$at" -lt $((size - 1)) ] || continue
            "$grade" add < "$text" > out
            [ $? = 2 ] && grep -qx 'refused shares: \(share 2/4 is cut\|line [0-9]*: no share begins here\)' out && continue
            echo "$text, $at" && return 1
        done
    done
}

# divides WORD SESSION: three shares together have the rows of the whole, and the totals of each are those of its lines.
divides() {
    local k
    : > all
    for k in 1 2 3; do
        "$grade" "$1" "$k/3" < "$2" > part && tail -n +2 part | head -n -1 >> all || return
        [ "$(tail -n 1 part)" = "# $("$grade" run "$k/3" < "$2" | tail -n 1)" ] || return
    done
    "$grade" "$1" < "$2" | sorted_rows > want && sorted_rows < all | cmp want -
}

# sorted_rows: the rows on standard input, each on a line with the comment before it, in order.
sorted_rows() {
    awk '/^#/ { note = $0 ";"; next } /^\[\[flaw\]\]/ { if (n++) print ""; printf "%s", note } { printf "%s;", $0 } END { print "" }' | sort
}

# has_mark SESSION: a share names the session by FNV-1a of its bytes, and says which it is.
has_mark() {
    local word
    python3 - "$1" > want << 'FNV'
import sys
mark = 0xcbf29ce484222325
for byte in open(sys.argv[1], "rb").read():
    mark = (mark ^ byte) * 0x100000001b3 % 2 ** 64
print("# share 2/3 of session {:#x}".format(mark))
FNV
    for word in run missed found lines; do "$grade" "$word" 2/3 < "$1" | head -n 1 | cmp want - || return; done
}

# finds SESSION: with each flaw that is found alone, a script cut off behind the line that finds it shows a difference or a bus
# error, and one cut off before it ends as without the flaw.
finds() {
    local row line count=0
    rm -f row*
    "$grade" found < "$1" | awk '/^# line/ { n++ } { print > ("row" n) }' || return
    for row in row*; do
        count=$((count + 1))
        line=$(sed -n '1s/^# line //p' "$row")
        ends_as "$1" "$row" $((line - 1)) || { cat "$row"; return 1; }
        ! ends_as "$1" "$row" "$line" || { cat "$row"; return 1; }
    done
    [ "$count" = "$("$grade" run < "$1" | sed -n 's/^end: .* flaws, \([0-9]*\) found.*/\1/p')" ]
}

# ends_as SESSION ROW LINES: the first so many lines of the script end with the flaw as without it.
ends_as() {
    { sed '/^---$/,$d' "$1"; echo ---; sed '1,/^---$/d' "$1" | head -n "$3"; } > front
    { sed '/^---$/,$d' "$1"; cat "$2"; echo ---; sed '1,/^---$/d' "$1" | head -n "$3"; } > flawed
    [ "$("$program" run < flawed | tail -n 1)" = "$("$program" run < front | tail -n 1)" ]
}

# counts_lines SESSION: each line of the script that asks for something is told once, in order, with how many rows name it, and
# then the totals.
counts_lines() {
    "$grade" found < "$1" | sed -n 's/^# line //p' > numbers
    sed '1,/^---$/d' "$1" | grep -nv '^[[:space:]]*\(#.*\)\?$' | cut -d: -f1 | while read -r line; do
        echo "line $line: $(grep -cx "$line" numbers) found"
    done > want
    "$grade" run < "$1" | tail -n 1 >> want
    grades lines "$1" want
}

# ends_with SESSION LINE..: the last lines of a grade.
ends_with() {
    printf '%s\n' "${@:2}" > want
    "$grade" run < "$1" | tail -n $(($# - 1)) | cmp want -
}

# is_json SESSION: the object says what `run` and `missed` say.
is_json() {
    "$grade" run < "$1" > whole && "$grade" missed < "$1" > rows && "$grade" json at-least 50 < "$1" > out || return
    python3 - out whole rows << 'JSON'
import json, re, sys, tomllib
told, whole, rows = (open(name).read() for name in sys.argv[1:])
told, kinds = json.loads(told), {}
verdicts = ("found", "missed", "hidden")
for kind, *counts in re.findall(r"(\w+) (\d+) found (\d+) missed(?: (\d+) hidden)?", whole.rpartition("end: ")[0]):
    each = kinds.setdefault(kind, dict.fromkeys(verdicts, 0))
    for verdict, count in zip(verdicts, counts):
        each[verdict] += int(count or 0)
end = re.search(r"end: (\d+) flaws, (\d+) found, (\d+) missed(?:, (\d+) hidden)?, ([0-9.]+) % found(?:, ([0-9.]+) % of those)?", whole)
flaws, found, missed, hidden = (int(it or 0) for it in end.groups()[:4])
assert [told[it] for it in ("flaws", *verdicts)] == [flaws, found, missed, hidden]
assert told["percent"] == float(end[5]) and told["percent_findable"] == float(end[6] or end[5])
assert told["by_kind"] == kinds and told["missed_flaws"] == tomllib.loads(rows).get("flaw", [])
assert told["at_least"] == 50 and told["passed"] == (found * 100 >= 50 * (flaws - hidden)) and told["share"] == {"first": 1, "every": 1}
JSON
}

# waives SESSION FILE: with this file of waivers the found rows stay, the others that stand in the file are waived, and all counts
# are those of the rows.
waives() {
    python3 - "$grade" "$1" "$2" << 'WAIVE'
import json, re, subprocess, sys
grade, session, file = sys.argv[1:]
def told(*words):
    with open(session) as it:
        return subprocess.run([grade, *words], stdin=it, capture_output=True, text=True).stdout
def rows(text):
    return re.findall(r"\[\[flaw\]\]\n(?:\w.*\n)+", text)
known = rows(open(file).read() + "\n")
before = {word: rows(told(word)) for word in ("found", "missed", "hidden")}
after = {word: rows(told(word, "waive", file)) for word in ("found", "missed", "hidden", "waived")}
assert after["found"] == before["found"]
for word in ("missed", "hidden"):
    assert after[word] == [row for row in before[word] if row not in known], word
assert sorted(after["waived"]) == sorted(row for row in known if row not in before["found"])
count = {word: len(each) for word, each in after.items()}
count["needless"] = len(known) - count["waived"]
flaws, can = sum(map(len, after.values())), count["found"] + count["missed"]
share = lambda of: f"{count['found'] * 1000 // of / 10:.1f}"
want = f"end: {flaws} flaws, {count['found']} found, {count['missed']} missed"
for word, name in ("hidden", "hidden"), ("waived", "waived"), ("needless", "needless waivers"):
    want += f", {count[word]} {name}" if count[word] else ""
want += f", {share(flaws)} % found" + (f", {share(can)} % of those that can be found" if 0 < can < flaws else "")
assert told("run", "waive", file).splitlines()[-1] == want, want
object = json.loads(told("json", "waive", file))
assert {word: object.get(word, 0) for word in count} == count
assert object["percent_findable"] == (float(share(can)) if can else None)
for word in "found", "missed", "hidden", "waived":
    assert sum(kind.get(word, 0) for kind in object["by_kind"].values()) == count[word], word
WAIVE
}

# shares_waive SESSION FILE: shares with this file of waivers add up to the whole, and one without isn't of the same grading.
shares_waive() {
    local k
    for k in 1 2 3; do "$grade" run "$k/3" waive "$2" < "$1" > "waived$k" || return; done
    cat waived? | sums 0 "$("$grade" run waive "$2" < "$1" | tail -n 1)" || return
    "$grade" run 2/3 < "$1" | cat waived1 - waived3 | sums 2 'refused shares: share 2/3 is of another grading'
}

# passes STATUS SESSION WORD at-least P [WORDS..]: the status of a grading with a bound, which doesn't change what is told.
passes() {
    "$grade" "${@:3}" < "$2" > out
    [ $? = "$1" ] && "$grade" "$3" "${@:6}" < "$2" | cmp out -
}

# refuses STATUS LINE SESSION WORDS..: what is written in place of a grade, and nothing else is said but where that is.
refuses() {
    "$grade" "${@:4}" < "$3" > out 2> messages
    [ $? = "$1" ] && ! grep -v '^regrun-grade: line ' messages && printf '%s\n' "$2" | cmp - out
}

# asks WORDS..: words that ask for nothing.
asks() {
    "$grade" "$@" < "$top/examples/uart.regrun" > out 2> messages
    [ $? = 6 ] && [ ! -s out ] && [ "$(wc -l < messages)" = 1 ] && grep -q '^regrun-grade: ' messages
}

# tells SESSION LINES..: a grading has each of these lines.
tells() {
    local line
    "$grade" run < "$1" > out
    for line in "${@:2}"; do grep -qxF "$line" out || { echo "$line"; return 1; }; done
}

# shows_nothing WORD SESSION LINES: with each missed or hidden flaw alone, the program's log has the same last line as without
# it; with +1 for LINES all lines are the same.
shows_nothing() {
    local row lines=$3 count=0
    "$program" run < "$2" | tail -n "$lines" > end
    rm -f row*
    "$grade" "$1" < "$2" | awk '/^\[\[flaw\]\]/ { n++ } { print > ("row" n) }' || return
    for row in row*; do
        count=$((count + 1))
        [ $((count % every)) = 0 ] || { skipped=$((skipped + 1)) && continue; }
        { sed '/^---$/,$d' "$2"; cat "$row"; sed -n '/^---$/,$p' "$2"; } > flawed
        "$program" run < flawed | tail -n "$lines" | cmp -s end - || { cat "$row"; return 1; }
    done
    [ "$count" = "$("$grade" run < "$2" | sed -n "s/^end: .* \([0-9]*\) $1.*/\1/p")" ]
}

# Sessions to be graded beside the other grader; of these a trial takes the small ones.
small=("$rows"/{access-test,memory-walk,pair-at-one-address,shared-access,write-only-is-not-compared,empty-session}.session
    "$top/examples/map-tree.regrun")
large=("$rows"/{bit-bash-without-flaw,bursts,byte-map-in-word-map,session-over-three-roots,session-over-word-addressed-maps-1}.session
    "$rows"/{session-with-pairs-1,whole-session-2,whole-session-4}.session "$top"/examples/{memories,second-master,uart}.regrun)
# The UART where nothing reads what is to be sent, so that its flaws are hidden.
sed -e '/^name = "txd"/a backdoor = false' -e '/^item = "uart.txd"/a rights = "wo"' "$top/examples/uart.regrun" > unread.regrun
large+=("$PWD/unread.regrun")
# Two registers with a field that no check compares. Beside one of them hardware changes a field that is compared, so that an
# update which is needed by one belief and not by another tells of the first field too.
cat > unchecked.regrun << 'SESSION'
[[reg]]
name = "ctrl"
bytes = 1
[[reg.field]]
name = "hint"
lsb = 0
width = 4
policy = "RW"
reset = 0
compare = false
[[reg.field]]
name = "mode"
lsb = 4
width = 4
policy = "RW"
reset = 0
[[reg]]
name = "stat"
bytes = 1
[[reg.field]]
name = "note"
lsb = 0
width = 4
policy = "RW"
reset = 0
compare = false
[[reg.field]]
name = "seen"
lsb = 4
width = 1
policy = "RW"
reset = 0
volatile = true
compare = true
[[map]]
name = "bus"
bytes = 1
[[place]]
map = "bus"
item = "ctrl"
[[place]]
map = "bus"
item = "stat"
offset = 1
---
read stat
set stat.note 1
hw stat.seen 1
update stat
check stat
SESSION
small+=("$PWD/unchecked.regrun")
[ -z "$alone" ] || small+=("${large[@]}")

# all_beside: what is told of these sessions by each word that the other grader knows too.
all_beside() {
    local session word
    [ -n "$alone" ] || skipped=$((3 * ${#large[@]}))
    if ! python3 -c 'import tomllib' 2> /dev/null; then
        skipped=$((skipped + 3 * ${#small[@]}))
        echo 'Python 3.11 or later is not installed'
        return
    fi
    for session in "${small[@]}"; do
        for word in run missed hidden; do
            judge "$(basename "$session"), $word" beside "$word" "$session"
        done
    done
}
[ "$part" = texts ] || all_beside

# counts: the last line, and the status.
counts() {
    echo "$passed passed, $failed failed, $skipped skipped"
    [ "$failed" = 0 ]
}
[ "$part" != beside ] || { counts; exit; }

for name in uart uart-plan; do
    judge "$name" grades run "$top/examples/$name.regrun" "$top/examples/$name.grade"
done

judge 'hidden flaws' ends_with unread.regrun \
    'uart.txd: deaf 0 found 0 missed 1 hidden, address 1 found 0 missed; hidden: deaf' \
    'uart.txd.byte: stuck 0 found 0 missed 16 hidden, policy 0 found 0 missed 24 hidden; hidden: stuck at 0 bit 0-7, stuck at 1 bit 0-7, policy all 24' \
    'session: item 2 found 0 missed' \
    'end: 173 flaws, 94 found, 38 missed, 41 hidden, 54.3 % found, 71.2 % of those that can be found'

judge 'fields that no check compares' tells unchecked.regrun \
    'ctrl.hint: stuck 0 found 0 missed 8 hidden, reset 0 found 0 missed 4 hidden, policy 0 found 0 missed 24 hidden; hidden: stuck at 0 bit 0-3, stuck at 1 bit 0-3, reset HARD bit 0-3, policy all 24' \
    'stat.note: stuck 1 found 7 missed, reset 1 found 3 missed, policy 0 found 24 missed; missed: stuck at 0 bit 0-3, stuck at 1 bit 1-3, reset HARD bit 1-3, policy all 24'

judge 'shares of uart' adds run "$top/examples/uart.regrun"
judge 'shares of hidden flaws' adds run unread.regrun
judge 'shares of uart, lines' adds lines "$top/examples/uart.regrun"
[ -z "$alone" ] || judge 'shares of three roots' adds run "$rows/session-over-three-roots.session"
judge 'shares of nothing' adds run "$rows/empty-session.session"

for k in 1 2 3 4; do "$grade" run "$k/4" < "$top/examples/uart.regrun" > "share$k"; done
"$grade" run < "$top/examples/uart.regrun" > whole
"$grade" run 2/8 < "$top/examples/uart.regrun" > eighth
"$grade" missed 2/4 < "$top/examples/uart.regrun" > rows2
"$grade" run 2/4 < "$rows/empty-session.session" > other
head -c -1 share4 > short
sed 's/^end: /end: 0/' share2 > zero
most=18446744073709551615
for k in 1 2; do printf '# share %s/2 of session 0x1\nend: %s flaws, %s found, 0 missed, 100.0 %% found\n' $k $most $most; done > most
printf '# share %s/%s of session 0xffffffffffffffff\nend: 0 flaws, 0 found, 0 missed\n' $most $most > last
all='share1 share2 share3 share4' total=$(tail -n 1 whole)
judge 'enough in all' of_these 0 "$total" "$all" at-least 71
judge 'too few in all' of_these 8 "$total" "$all" at-least 72
judge 'sums that have come to their end' of_these 0 "end: $most flaws, $most found, 0 missed, 100.0 % found" most
judge 'a last line without its end' of_these 0 "$total" 'share1 share2 share3 short'
judge 'no share' of_these 2 'refused shares: there is none' /dev/null
judge 'a share that comes twice' of_these 2 'refused shares: share 2/4 came twice' 'share1 share2 share3 share2 share4'
judge 'a share of another session' of_these 2 'refused shares: share 2/4 is of another grading' 'share1 other share3 share4'
judge 'a share of more shares' of_these 2 'refused shares: share 2/8 is of another grading' 'share1 eighth share3 share4'
judge 'a share that is lacking' of_these 2 'refused shares: share 2/4 is lacking' 'share4 share1'
judge 'the first of many lacking' of_these 2 "refused shares: share 1/$most is lacking" last
judge 'the whole in place of shares' of_these 2 'refused shares: line 1: no share begins here' whole
judge 'the whole behind a share' of_these 2 "refused shares: line $(($(wc -l < share1) + 1)): no share begins here" 'share1 whole'
judge 'a share of rows' of_these 2 'refused shares: share 2/4 is cut' rows2
judge 'another way to write a number' of_these 2 'refused shares: share 2/4 is cut' 'share1 zero share3'
judge 'a share cut off anywhere' is_cut share2 share3
judge 'a share of a whole' grades 'run 1/1' "$top/examples/uart.regrun" "$top/examples/uart.grade"
judge 'the mark of a session' has_mark "$top/examples/uart.regrun"

judge 'shares of missed rows' divides missed "$top/examples/uart.regrun"
judge 'shares of hidden rows' divides hidden unread.regrun
judge 'shares of found rows' divides found "$top/examples/uart.regrun"

for name in uart uart-plan; do
    [ -z "$alone" ] || judge "$name, the lines that find" finds "$top/examples/$name.regrun"
    judge "$name, how many a line finds" counts_lines "$top/examples/$name.regrun"
done
if python3 -c 'import tomllib' 2> /dev/null; then
    for session in "$top"/examples/{uart,uart-plan,map-tree}.regrun "$rows/session-with-pairs-1.session" "$rows/memory-walk.session" unread.regrun; do
        judge "$(basename "$session"), json" is_json "$session"
    done
fi
uart=$top/examples/uart.regrun
judge 'enough are found' passes 0 "$uart" run at-least 71
judge 'too few are found' passes 8 "$uart" run at-least 72
judge 'too few are found, as rows' passes 8 "$uart" missed at-least 72
judge 'all are asked for' passes 8 "$uart" found at-least 100
judge 'none is asked for' passes 0 "$uart" lines at-least 0
judge 'enough of those that can be found' passes 0 unread.regrun run at-least 71
judge 'too few of those that can be found' passes 8 unread.regrun run at-least 72

# Flaws that are waived: each third row that is missed or hidden, each fifth that is found, with comments and blank lines, and
# no end of the last line.
for name in uart unread; do
    session=$top/examples/$name.regrun
    [ -e "$session" ] || session=$name.regrun
    for word in missed hidden found; do "$grade" "$word" < "$session" | grep -v '^#'; done |
        awk '/^\[\[flaw\]\]/ { n++ } n % 3 == 0 || n % 5 == 0 { if (/^\[\[flaw\]\]/ && n % 15 == 0) print "\n# known"; print }' |
        head -c -1 > "$name.waived"
    judge "$name, waived flaws" waives "$session" "$name.waived"
    judge "$name, shares with waived flaws" shares_waive "$session" "$name.waived"
done
"$grade" missed < "$uart" > all.waived
judge 'all that is missed is waived' passes 0 "$uart" run at-least 100 waive all.waived
judge 'enough with waivers' passes 0 "$uart" run at-least 81 waive uart.waived
judge 'too few with waivers' passes 8 "$uart" run at-least 82 waive uart.waived
judge 'an empty file of waivers' grades 'run waive /dev/null' "$uart" "$top/examples/uart.grade"
{ cat all.waived && head -n 4 all.waived; } > twice.waived
sed '0,/^policy/s/^policy = /policy=/' all.waived > blank.waived
printf '# known\n\n[[flaw]]\nkind = "error-nth"\nnth = 1\nfield = "a"\n' > key.waived
printf '# known\n\n[[flaw]]\nkind = "error-nth"\nnth = 3\n' > item.waived
{ head -n 8 all.waived && printf '\nkind = "deaf"\n'; } > stray.waived
printf '[[flaw]]\r\nkind = "error-nth"\r\nnth = 1\r\n' > ends.waived
unknown='no flaw of this session is written so'
judge 'a flaw that is waived twice' refuses 2 "refused waivers: line $(($(wc -l < all.waived) + 1)): this flaw is waived before" "$uart" run waive twice.waived
judge 'another blank in a waiver' refuses 2 "refused waivers: line 1: $unknown" "$uart" json waive blank.waived
judge 'a key too many in a waiver' refuses 2 "refused waivers: line 3: $unknown" "$uart" missed waive key.waived
judge 'an item that is neither the first nor the last' refuses 2 "refused waivers: line 3: $unknown" "$uart" run 1/2 waive item.waived
judge 'a line of no row' refuses 2 "refused waivers: line 10: $unknown" "$uart" run at-least 10 waive stray.waived
judge 'other ends of lines' refuses 2 "refused waivers: line 1: $unknown" "$uart" lines waive ends.waived

printf -- '---\nread\n' > line
sed 's/^---$/---\nread/' "$top/examples/uart.regrun" > late
{ sed '/^---$/,$d' "$top/examples/uart.regrun"; printf '[[flaw]]\nkind = "error-nth"\nnth = 1\n---\n'; } > own
judge 'a flaw of its own' refuses 2 'refused session: the description has flaws of its own' own run
judge 'a flaw of its own, missed' refuses 2 'refused session: the description has flaws of its own' own missed
judge 'a refused line' refuses 2 'refused line 1: wrong count' line run
judge 'a refused line before others' refuses 2 'refused line 1: wrong count' late missed
judge 'no separator' refuses 2 'refused session: no separator' "$rows/no-separator.session" run
judge 'a refused description' refuses 2 'refused description map 1: bad bytes' "$rows/refused-bad-bytes-of-a-map.session" run 1/2

judge 'no words' asks
judge 'another word' asks walk
judge 'a word too many' asks run 1/3 2
judge 'a bound behind no word' asks at-least 90
judge 'a bound without its number' asks run at-least
judge 'a bound before a share' asks run at-least 90 1/3
judge 'a share to be added' asks add 1/3
judge 'another word behind add' asks add run
judge 'a bound without its number behind add' asks add at-least
judge 'a word behind the bound of add' asks add at-least 90 1/3
judge 'a bound of add above 100' asks add at-least 101
judge 'waivers without their file' asks run waive
judge 'waivers before a bound' asks run waive all.waived at-least 90
judge 'waivers of shares' asks add waive all.waived
judge 'waivers behind no word' asks waive all.waived
for bound in 101 -1 0x10 x 9.5 '' 18446744073709551616; do
    judge "the bound $bound" asks run at-least "$bound"
done
for share in 0/3 4/3 1/0 1 1/ /3 1/3/5 0x1/3 1/x ' 1/3' -1/3 18446744073709551616/18446744073709551617; do
    judge "the share $share" asks run "$share"
done

full() {
    "$grade" run < "$top/examples/uart.regrun" > /dev/full 2> messages
    [ $? = 4 ]
}
judge 'a full disk' full

# fails STATUS COMMAND..: nothing is written on standard output.
fails() {
    "${@:2}" > out 2> messages
    [ $? = "$1" ] && [ ! -s out ]
}
judge 'waivers that are not there' fails 3 "$grade" run waive no.waived
judge 'waivers that can not be read' fails 3 "$grade" run waive "$room"
judge 'shares that can not be read' fails 3 "$grade" add < "$room"
judge 'a full disk for a sum' fails 4 sh -c '"$1" add < share1 > /dev/full' sh "$grade"

for name in uart second-master; do
    judge "$name, the rows of missed flaws" shows_nothing missed "$top/examples/$name.regrun" 1
done
judge 'the rows of hidden flaws' shows_nothing hidden unread.regrun +1
judge 'the rows of flaws that no check compares' shows_nothing hidden "$top/examples/uart.regrun" 1

counts
