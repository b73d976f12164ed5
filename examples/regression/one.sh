#!/usr/bin/env bash
# one.sh SESSION: runs one session beside which its NAME.log, NAME.status and NAME.seconds then stand. REGRUN is the program
# (default: the regrun of this checkout, or of where this was installed, or on PATH) and LIMIT the seconds that it may take
# (default 60); past these the status is 124.
set -u
here=$(dirname "$(realpath "$0")")
name=${1%.session}
rm -f "$name.log" "$name.status" "$name.seconds"
program=${REGRUN:-}
for each in "$here/../../regrun" "$here/../../../../bin/regrun" regrun; do
    [ -n "$program" ] || ! command -v "$each" > /dev/null || program=$each
done
start=${EPOCHREALTIME/[.,]/}
timeout "${LIMIT:-60}" "${program:-regrun}" run < "$name.session" > "$name.log"
echo $? > "$name.status"
took=$((${EPOCHREALTIME/[.,]/} - start))
printf '%d.%06d\n' $((took / 1000000)) $((took % 1000000)) > "$name.seconds"
