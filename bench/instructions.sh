#!/usr/bin/env bash
# Counts the instructions of each row that bench/core.sh, units.sh or lines.sh times, of ours and of the plain loops, by
# valgrind's callgrind, and prints them in thousands with their ratios: they don't vary as times do.
# Usage: bench/instructions.sh core|units|lines [BYTES]. PROGRAM is another program than that of linemap_bench.
set -euo pipefail
part="$1" size="${2:-1048576}"
top="$(dirname "$(dirname "$(readlink -f "$0")")")"
work="$(mktemp -d)"
trap 'rm -rf "$work"' EXIT
program="${PROGRAM:-}"
if [ -z "$program" ]; then
    "$top/tools/build" linemap_bench
    program="$top/crates/linemap_bench/out/linemap_bench"
fi
rustc -O --edition 2021 -o "$work/plain" "$top/bench/$part.rs"

# Prints each row's name and instructions: callgrind writes what it has counted before each call of these functions.
count() { # NAME OPTIONS WORD..
    local name="$1"
    # shellcheck disable=SC2086 (several options)
    valgrind --tool=callgrind $2 --callgrind-out-file="$work/$name.counts" "${@:3}" > /dev/null 2> "$work/$name.said"
    sed -n 's/: [0-9]* us$//p' "$work/$name.said" > "$work/$name.names"
    ls -v "$work/$name".counts.[0-9]* > "$work/$name.parts"
}

# The plain loops do their work in `report`: what comes before its next call, and the end, is a row's.
count plain "--dump-before=*::report*" "$work/plain" "$size"
{ tail -n +2 "$work/plain.parts"; echo "$work/plain.counts"; } | xargs awk '/^totals: / { print $2 }' \
    | paste "$work/plain.names" - > "$work/plain.rows"
# Ours ask for the time before a row, and report it afterwards.
count ours "--dump-before=*Instant::now* --dump-before=*timing::report*" "$program" "$part" "$size"
xargs grep -l 'Trigger: --dump-before=.*report' < "$work/ours.parts" | xargs awk '/^totals: / { print $2 }' \
    | paste "$work/ours.names" - > "$work/ours.rows"
awk -F '\t' '
    BEGIN { printf "%-20s %10s %10s %6s\n", "", "plain", "ours", "ratio" }
    FNR == NR { plain[$1] = $2; next }
    { split($1, word, " "); printf "%-20s %10d %10d %6.2f\n", $1, plain[word[1]] / 1000, $2 / 1000, $2 / plain[word[1]] }
    ' "$work/plain.rows" "$work/ours.rows"
