#!/usr/bin/env bash
# Measures the whole program, `linemap lookup`, beside llvm-symbolizer, elfutils' eu-addr2line and binutils' addr2line,
# as far as they are installed, and beside a program over the Rust crate addr2line, where one is named. On the same image
# and the same addresses: the frames of one address, places and frames of 10,000 addresses of .text, and the places of
# all addresses at which rows begin. Prints the processor time, the least of ROUNDS, and the peak memory, each with its
# multiple of the Rust program's, or of ours where there is none. A run is cut off after SECONDS_EACH (60). Ours and the
# Rust program's answers are compared.
# Usage: bench/lookup.sh IMAGE ROUNDS [RUST], where RUST takes `-e IMAGE`, then `-f -i` for frames or `--all` for all
# addresses, and else reads addresses from its input, as addr2line does. PROGRAM is another program than ./linemap, and
# PEERS are others than those three.
set -euo pipefail
. "$(dirname "$(readlink -f "$0")")/processes.bash"
image="$(readlink -f "$1")" rounds="$2" rust="${3:-}" seconds="${SECONDS_EACH:-60}"
program="${PROGRAM:-$(built_program)}"
programs=(linemap)
[ -z "$rust" ] || programs+=(rust)
for name in ${PEERS-llvm-symbolizer eu-addr2line addr2line}; do
    type -P "$name" > "$work/path" && programs+=("$name")
done

addresses_in_text "$image" 10000 > "$work/many"
head -n 1 "$work/many" > "$work/one"
"$program" lookup -e "$image" --all -a | grep -x '0x[0-9a-f]*' > "$work/all"

# Adds what a program does for a case.
add_case() { # PROGRAM CASE
    local input="$work/many" command=("$1" -e "$image")
    case "$1" in
        linemap) command=("$program" lookup -e "$image") ;;
        rust) command=("$rust" -e "$image") ;;
        llvm-symbolizer) command=("$1" "--obj=$image") ;;
    esac
    case "$1 $2" in
        *" one" | *" all") input="$work/$2" ;;
    esac
    case "$1 $2" in
        "llvm-symbolizer one" | "llvm-symbolizer frames") command+=(--functions=linkage --no-demangle --inlines) ;;
        llvm-symbolizer*) command+=(--functions=none --no-inlines) ;;
        "linemap all" | "rust all") command+=(--all) ;;
        *" one" | *" frames") command+=(-f -i) ;;
    esac
    add "$1" "$input" "$work/$1.out" "${command[@]}"
}

cat "$image" > /dev/null
for case in one places frames all; do
    for who in "${programs[@]}"; do
        add_case "$who" "$case"
    done
    measure "$case" "$rounds" "$seconds"
    [ -z "$rust" ] || compare "$case" "$work/rust.out" "$work/linemap.out"
done
echo "all: $(wc -l < "$work/all") addresses"
print_measures "$([ -n "$rust" ] && echo rust || echo linemap)"
