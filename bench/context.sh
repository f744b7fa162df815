#!/usr/bin/env bash
# Measures lookups in an ELF image's debug information, through `Context` with both readers (`crates/linemap_bench`),
# beside another program that prints the same answers: the frames of one address, places and frames of 10,000 addresses
# of .text, and the places of all addresses at which rows begin. Then the same over images that are made to be slow to
# read (`bench/hostile.py`): 16,000 units whose functions have their names in the next one; a unit of 8,000 functions,
# each with a range and a sequence of its own; a sequence of 1,000,000 rows; 20,000 calls in one another; 10,000 partial
# units beside those that import them. Prints the processor time, the least of ROUNDS, and the peak memory of whole
# processes, and ours as multiples of the other's; the answers are compared.
# Usage: bench/context.sh IMAGE ROUNDS PEER.., where PEER.. takes `-e IMAGE`, then `-f -i` for frames or `--all` for all
# addresses, and else reads addresses from its input, as addr2line does. PROGRAM is another than that of linemap_bench,
# and CASES are some of the cases.
set -euo pipefail
. "$(dirname "$(readlink -f "$0")")/processes.bash"
image="$(readlink -f "$1")" rounds="$2"
shift 2
peer=("$@")
program="${PROGRAM:-$(built_program linemap_bench)}"
ulimit -s unlimited

# Prints addresses at equal steps.
addresses_between() { # BEGIN SIZE COUNT
    local number
    for (( number = 0; number < $3; number++ )); do
        printf '0x%x\n' $(( $1 + $2 * number / $3 ))
    done
}

# Measures a case: what is asked of an image, and the addresses.
measure_case() { # CASE IMAGE WHAT ADDRESSES
    local case="$1" image="$2" what="$3" addresses="$4" list=("$4") options=() reader
    case "$what" in
        frames) options=(-f -i) ;;
        all) options=(--all) list=() ;;
    esac
    add peer "$addresses" "$work/peer.out" "${peer[@]}" -e "$image" "${options[@]}"
    for reader in slice bytes; do
        add "$reader" /dev/null "$work/$reader.out" "$program" image "$image" "$reader" "$what" "${list[@]}"
    done
    measure "$case" "$rounds" 600
    for reader in slice bytes; do
        compare "$case" "$work/peer.out" "$work/$reader.out"
    done
}

# The same of an image that is made.
measure_made() { # CASE KIND COUNT WHAT SIZE ADDRESSES
    python3 "$top/bench/hostile.py" make "$2" "$3" "$work/made" > /dev/null
    addresses_between 0x1000 "$5" "$6" > "$work/asked"
    measure_case "$1" "$work/made" "$4" "$work/asked"
}

addresses_in_text "$image" 10000 > "$work/many"
head -n 1 "$work/many" > "$work/one"
for case in ${CASES:-one places frames all linked functions all-functions rows nested partial}; do
    case "$case" in
        one) measure_case "$case" "$image" frames "$work/one" ;;
        frames | places | all) measure_case "$case" "$image" "$case" "$work/many" ;;
        linked) measure_made "$case" linked-units 16000 frames 16000 1 ;;
        functions) measure_made "$case" functions-in-sequences 8000 frames 32000 10000 ;;
        all-functions) measure_made "$case" functions-in-sequences 8000 all 32000 1 ;;
        rows) measure_made "$case" rows 1000000 places 1000000 10000 ;;
        nested) measure_made "$case" nested-calls 20000 frames 99 100 ;;
        partial) measure_made "$case" partial-units 10000 frames 10000 10000 ;;
    esac
done
print_measures peer
