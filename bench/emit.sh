#!/usr/bin/env bash
# Measures `linemap emit`, `linemap ask` with 10,000 addresses, and `linemap lookup` of the same addresses in the image,
# on tables of 100,000 rows in 1,000 units and of 1,000,000 rows in 10,000 units (bench/table.py). Prints the processor
# time, the least of ROUNDS (3), and the peak memory of whole processes; of the memory the multiple of the table's JSON or
# of the image, and of the time that of the smaller table. The answers of `ask` and of `lookup` must be the same.
# Usage: bench/emit.sh [ROUNDS], where PROGRAM is another program than ./linemap
set -euo pipefail
. "$(dirname "$(readlink -f "$0")")/processes.bash"
rounds="${1:-3}"
program="${PROGRAM:-$(built_program)}"

size_of() { stat -c %s "$1"; }

for units in 1000 10000; do
    table="$work/table.json" image="$work/table.elf"
    "$top/bench/table.py" rows "$units" 100 > "$table"
    addresses=()
    for (( number = 0; number < 10000; number++ )); do
        addresses+=("$(( 0x10000 + (number * 7919 * 16 + 5) % (units * 1600) ))")
    done
    printf '0x%x\n' "${addresses[@]}" > "$work/addresses"
    mapfile -t addresses < "$work/addresses"

    add emit /dev/null "$work/emit.out" "$program" emit "$table" "$image"
    add ask /dev/null "$work/ask.out" "$program" ask "$table" "${addresses[@]}"
    add lookup "$work/addresses" "$work/lookup.out" "$program" lookup -e "$image"
    measure "$units" "$rounds" 600
    compare "$units units" "$work/ask.out" "$work/lookup.out"
    [ "$(wc -l < "$work/ask.out")" = "${#addresses[@]}" ] || echo "$units units: not each address is answered"
    ! grep -q '^??' "$work/ask.out" || echo "$units units: some addresses aren't found"
    printf '%s\t%s\t%s\n' "$units" "$(size_of "$table")" "$(size_of "$image")" >> "$work/sizes"
done

awk -F '\t' '
    FNR == NR { table[$1] = $2; image[$1] = $3; next }
    NF < 4 { print $1, $2, $3; next }
    $1 != before { printf "%d units: %.1f MB of JSON, an image of %.1f MB\n", $1, table[$1] / 1e6, image[$1] / 1e6; before = $1 }
    {
        of = $2 == "lookup" ? image[$1] : table[$1]
        printf "  %-8s %8.3f s %9.1f MiB, %5.2f times the %s", $2, $3 / 1e6, $4 / 1024, $4 * 1024 / of, $2 == "lookup" ? "image" : "JSON"
        if ($2 in first) printf "; %.1f times the time", $3 / first[$2]; else first[$2] = $3
        print ""
    }' "$work/sizes" "$work/measures"
