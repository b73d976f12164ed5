#!/usr/bin/env bash
# rows/check.sh BIN [sessions|limits|crowds]: runs a regrun on every row, and on each example and its log as a script; on the
# largest sessions, which are made here, and on faults of input and output; and on descriptions with the most rows of each kind;
# or on one of these three alone.
# It compares the whole output and the status. The last line is 'N passed, M failed'.
#
# The rows stand in crates/test_rows/data, where a proved program runs them too: rows.txt has for each its name, its status and
# the command's words; NAME.session is standard input, and NAME.log the output that it must give. sessions.txt has sessions and
# their logs of one line. An example NAME.regrun has its log as NAME.log, its status as NAME.status (absent: 0) and its words,
# one a line, as NAME.words (absent: run).
set -u
bin=$(realpath "$1")
if [ ! -x "$bin" ]; then
    echo "there is no program $1"
    echo '0 passed, 1 failed'
    exit 1
fi
here=$(dirname "$(realpath "$0")")
rows=$here/../crates/test_rows/data
tmp=$(mktemp -d)
trap 'rm -rf "$tmp"' EXIT
passed=0
failed=0
beside='^regrun: ((line [0-9]+|note|[a-z]+ [0-9]+( .*)?): |the (input|output) couldn.t be |`run` or `map` is asked for)'

# check NAME INPUT LOG STATUS WORD..: one run over the file INPUT; its output must be LOG, and on standard error nothing may stand
# but what is said of a refusal, of wrong words, of a fault, or a note.
check() {
    local name=$1 input=$2 log=$3 status=$4
    shift 4
    timeout 600 "$bin" "$@" < "$input" > "${output:-$tmp/out}" 2> "$tmp/err"
    local code=$?
    [ -z "${output:-}" ] || : > "$tmp/out"
    if [ "$code" = "$status" ] && cmp -s "$log" "$tmp/out" && ! grep -qEv "$beside" "$tmp/err"; then
        passed=$((passed + 1))
        return
    fi
    failed=$((failed + 1))
    echo "$name: status $code, expected $status; the first difference:"
    diff -a "$log" "$tmp/out" | head -4
    head -2 "$tmp/err"
}

# sessions: those that are kept.
sessions() {
    local session name words status count
    while read -r name status words <&3; do
        case $name in '' | '#'*) continue ;; esac
        # shellcheck disable=SC2086
        check "$name" "$rows/$name.session" "$rows/$name.log" "$status" $words
    done 3< "$rows/rows.txt"

    for session in "$rows"/*/*.session; do
        name=${session#"$rows"/}
        grep -q "^${name%.session} " "$rows/rows.txt" && continue
        failed=$((failed + 1))
        echo "$name: rows.txt doesn't name it"
    done

    # Those whose log is one line.
    while IFS= read -r session <&3; do
        case $session in *' => '*) ;; *) continue ;; esac
        printf '%s\n' "${session%% => *}" | tr '|' '\n' > "$tmp/in"
        printf '%s\n' "${session##* => }" > "$tmp/want"
        status=0
        grep -q '^refused' "$tmp/want" && status=2
        check "$session" "$tmp/in" "$tmp/want" "$status" run
    done 3< "$rows/sessions.txt"

    for session in "$here"/../examples/*.regrun; do
        name=${session%.*}
        words=(run)
        [ -e "$name.words" ] && mapfile -t words < "$name.words"
        status=0
        [ -e "$name.status" ] && status=$(cat "$name.status")
        check "$(basename "$name")" "$session" "$name.log" "$status" "${words[@]}"
    done

    # The log of an example of run, run again as a script: without the lines of sequences and refused bursts it is the same.
    for session in "$here"/../examples/*.regrun; do
        name=${session%.*}
        [ -e "$name.words" ] && continue
        sed -f "$here/../examples/replay.sed" "$name.log" > "$tmp/script"
        { sed '/^---$/q' "$session"; cat "$tmp/script"; } > "$tmp/in"
        count=$(wc -l < "$tmp/script")
        sed "/^seq /d; /^burst-/d; s/^end: [0-9]* events/end: $count events/" "$name.log" > "$tmp/want"
        status=0
        [ -e "$name.status" ] && status=$(cat "$name.status")
        check "$(basename "$name") again" "$tmp/in" "$tmp/want" "$status" run
    done
}

# padded SIZE: the description with a comment that makes it so many bytes long.
padded() {
    printf '%s' "$description"
    head -c $(($1 - ${#description} - 1)) /dev/zero | tr '\0' '#'
    printf '\n---\nread a\n'
}

# crowd COUNT ROW: the row so many times, each with its number, from 0, for `#`.
crowd() {
    awk -v count="$1" -v row="$2" 'BEGIN { for (i = 0; i < count; i++) { it = row; gsub("#", i, it); print it } }'
}

# most KIND COUNT ROW: so many rows of a kind are taken, and one more isn't.
most() {
    printf 'end: 0 events, 0 differences, 0 bus errors\n' > "$tmp/want"
    { crowd "$2" "$3"; echo ---; } > "$tmp/in"
    check "most rows $1" "$tmp/in" "$tmp/want" 0 run
    printf 'refused description %s %s: too many\n' "$1" "$(($2 + 1))" > "$tmp/want"
    { crowd "$(($2 + 1))" "$3"; echo ---; } > "$tmp/in"
    check "too many rows $1" "$tmp/in" "$tmp/want" 2 run
}

# crowds: as many rows of each kind as a description may have, and one more; and texts that are deep, or wide, of which a trial
# (TRIAL in the environment) takes a tenth.
crowds() {
    local wide=349000
    [ -z "${TRIAL:-}" ] || wide=34900
    most block 256 '[[block]]\nname = "b#"'
    most file 256 '[[file]]\nname = "f#"'
    most reg 1024 '[[reg]]\nname = "r#"\nbytes = 1'
    most mem 64 '[[mem]]\nname = "m#"\nbytes = 1\nsize = 1024'
    most map 64 '[[map]]\nname = "m#"\nbytes = 1'
    printf 'refused description: not toml\n' > "$tmp/want"
    { echo 'reg = '; yes '[[' | head -n 349000; echo ---; } > "$tmp/in"
    check deep-text "$tmp/in" "$tmp/want" 2 run
    printf 'refused description: wrong type of reg\n' > "$tmp/want"
    { echo 'reg = ['; yes '1,' | head -n "$wide"; printf ']\n---\n'; } > "$tmp/in"
    check wide-array "$tmp/in" "$tmp/want" 2 run
}

# limits: those of a session, met and passed by one; an input that can't be read, and an output that is full.
limits() {
    smallest=$rows/rows/smallest-session.session
    description=$(sed '/^---$/,$d' "$smallest"; echo .)
    description=${description%.}
    read_zero='read a @bus: ok 0x00000000 mirror 0x00000000\n  bus r 0x0 0x00000000 1111 #0 ok\nend: 1 events, 0 differences, 0 bus errors\n'
    printf "$read_zero" > "$tmp/want"
    padded 1048576 > "$tmp/in"
    check longest-description "$tmp/in" "$tmp/want" 0 run
    { printf '%s---\n' "$description"; yes '                              ' | head -n 900000; echo 'read a'; } > "$tmp/in"
    check blank-lines "$tmp/in" "$tmp/want" 0 run
    printf 'refused session: description too long\n' > "$tmp/want"
    padded 1048577 > "$tmp/in"
    check description-too-long "$tmp/in" "$tmp/want" 2 run
    printf 'end: 0 events, 0 differences, 0 bus errors\n' > "$tmp/want"
    { printf '%s---\n' "$description"; yes '' | head -n 1000000; } > "$tmp/in"
    check most-lines "$tmp/in" "$tmp/want" 0 run
    printf 'refused line 1000001: too many lines\n' > "$tmp/want"
    { printf '%s---\n' "$description"; yes '' | head -n 1000001; } > "$tmp/in"
    check too-many-lines "$tmp/in" "$tmp/want" 2 run

    # An input that can't be read, and an output that is full.
    : > "$tmp/want"
    check unreadable-input / "$tmp/want" 3 run
    output=/dev/full check full-output "$smallest" "$tmp/want" 4 run
}

case ${2:-} in
    sessions | limits | crowds) "$2" ;;
    *)
        sessions
        limits
        crowds
        ;;
esac
echo "$passed passed, $failed failed"
[ "$failed" = 0 ]
