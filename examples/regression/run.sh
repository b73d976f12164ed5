#!/usr/bin/env bash
# run.sh [-j N] [-c CHIP] [-o OUT] [-a KIND:NAME].. [SCRIPT..]: runs each script over the chip, N at a time (default: all
# processors), and writes OUT/junit.xml and OUT/failing.html. -a refused:NAME, no-steps:NAME or empty:NAME lets the session
# NAME have refused operations, sequences of no step, or no operation at all. Ends with 0 where each session passed, else 1.
set -eu
here=$(dirname "$(realpath "$0")")
jobs=$(nproc) chip=$here/chip.toml out=$here/out allowed=()
while getopts j:c:o:a: option; do
    case $option in
        j) jobs=$OPTARG ;;
        c) chip=$OPTARG ;;
        o) out=$OPTARG ;;
        a) allowed+=(--allow "$OPTARG") ;;
        *) exit 2 ;;
    esac
done
shift $((OPTIND - 1))
[ $# -gt 0 ] || set -- "$here"/scripts/*.script
"$here/sessions.sh" "$chip" "$out" "$@" | xargs -I{} -P "$jobs" "$here/one.sh" "$out/{}.session"
python3 "$here/junit.py" "${allowed[@]}" "$out"
