#!/usr/bin/env bash
# table.sh BIN: instructions of the built program example_indirect (crates/example_indirect/out/example_indirect) for 100,000 and
# 200,000 accesses by index, at several numbers of entries. The difference of the two, over 100,000, is what an access takes:
# opening the chip and making the entries is in both. What the first 100,000 take, less a run without any, stands beside it: the
# time grows with the accesses alone where the two are alike. Needs valgrind. ENTRIES=.. takes other numbers of entries.
set -eu
bin=$(realpath "${1:?usage: table.sh BIN}")
read -r -a sizes <<< "${ENTRIES:-16 1024 16384 65536}"

instructions() {
    valgrind --tool=callgrind --callgrind-out-file=/dev/null "$bin" "$@" 2>&1 >/dev/null |
        sed -n 's/.*Collected : \([0-9]*\).*/\1/p'
}

printf '%10s%16s%16s%16s%14s%14s\n' entries "0 accesses" 100,000 200,000 "each of the" "each of the"
printf '%10s%16s%16s%16s%14s%14s\n' "" "" "" "" "first 100,000" "others"
for entries in "${sizes[@]}"; do
    none=$(instructions 0 "$entries")
    once=$(instructions 100000 "$entries")
    twice=$(instructions 200000 "$entries")
    printf '%10d%16d%16d%16d%14d%14d\n' "$entries" "$none" "$once" "$twice" \
        $(((once - none) / 100000)) $(((twice - once) / 100000))
done
