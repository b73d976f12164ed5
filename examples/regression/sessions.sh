#!/usr/bin/env bash
# sessions.sh CHIP OUT SCRIPT..: makes OUT/NAME.session of the description CHIP and each NAME.script, and prints their names.
set -eu
chip=$1 out=$2
shift 2
mkdir -p "$out"
for script in "$@"; do
    name=$(basename "$script" .script)
    { cat "$chip"; echo ---; cat "$script"; } > "$out/$name.session"
    echo "$name"
done
