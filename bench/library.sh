#!/usr/bin/env bash
# Measures examples/c/addr2line, a C program over the static library, which maps a file and copies nothing of it, beside
# library.rs, which does the same over the Rust crate addr2line 0.22, and the program `linemap lookup`, which reads the file:
# the frames of one address, places and frames of 10,000 addresses of .text, and the places of all addresses at which a range
# begins. Prints the processor time, the least of ROUNDS, the peak memory, and the most of it that is no map of a file, each
# with its multiple of the Rust program's. The answers are compared. (Those to addresses between two symbols differ in names: here
# a symbol without a size lasts until another holds the address.)
# Usage: bench/library.sh IMAGE ROUNDS
# VENDOR is a folder of the crate's sources with those that it needs, such as Rust's own sources have in vendor/; without it
# cargo fetches them. Where there is no cargo, ours are measured alone. LIBRARY names another archive than that of
# `tools/build addr2line_c`, PROGRAM another program than ./linemap, and PEER a program that library.rs was built to.
set -euo pipefail
. "$(dirname "$(readlink -f "$0")")/processes.bash"
image="$(readlink -f "$1")" rounds="$2" seconds="${SECONDS_EACH:-60}"
program="${PROGRAM:-$(built_program)}"
[ -n "${LIBRARY:-}" ] || "$top/tools/build" addr2line_c
export LINEMAP="$program" LIBRARY="${LIBRARY:-$top/crates/addr2line_c/out/libaddr2line_c.a}"
"${INSTALL:-$top/tools/install}" "$work/prefix" > /dev/null
cc -O2 -o "$work/addr2line" "$top/examples/c/addr2line.c" -I"$work/prefix/include" "$work/prefix/lib/libaddr2line.a"

build_peer() {
    mkdir -p "$work/peer/src" "$work/peer/.cargo"
    cp "$top/bench/library.rs" "$work/peer/src/main.rs"
    cat > "$work/peer/Cargo.toml" <<'TOML'
[package]
name = "library"
version = "0.1.0"
edition = "2021"
[dependencies]
addr2line = { version = "=0.22.0", default-features = false, features = ["rustc-demangle", "fallible-iterator", "smallvec", "std"] }
object = { version = "=0.36.7", default-features = false, features = ["read", "std"] }
memmap2 = "0.9"
[workspace]
TOML
    if [ -n "${VENDOR:-}" ]; then
        printf '%s\n' '[source.crates-io]' 'replace-with = "vendor"' '[source.vendor]' "directory = \"$VENDOR\"" \
            '[net]' 'offline = true' > "$work/peer/.cargo/config.toml"
    fi
    (cd "$work/peer" && cargo build --release --quiet) || return 1
    peer="$work/peer/target/release/library"
}

programs=(linemap library) peer="${PEER:-}"
if [ -n "$peer" ] || { type -P cargo > /dev/null && build_peer; }; then
    programs=(rust linemap library)
else
    echo "no peer: cargo, or the crate addr2line 0.22, isn't there"
fi

addresses_in_text "$image" 10000 > "$work/many"
head -n 1 "$work/many" > "$work/one"

add_case() { # PROGRAM CASE
    local input="$work/many" command=()
    case "$1" in
        rust) command=("$peer" -e "$image") ;;
        linemap) command=("$program" lookup -e "$image") ;;
        library) command=("$work/addr2line" -e "$image") ;;
    esac
    case "$2" in
        one) input="$work/one" command+=(-f -i) ;;
        frames) command+=(-f -i) ;;
        all) input=/dev/null command+=(--all) ;;
    esac
    add "$1" "$input" "$work/$1.out" "${command[@]}"
}

cat "$image" > /dev/null
for case in one places frames all; do
    for who in "${programs[@]}"; do
        add_case "$who" "$case"
    done
    measure "$case" "$rounds" "$seconds" own
    compare "$case" "$work/linemap.out" "$work/library.out"
    if [ "${programs[0]}" = rust ]; then
        # (Rust's ranges don't ascend, and some begin at the same address)
        [ "$case" != all ] || for who in rust library; do
            plain "$work/$who.out" | sort -u > "$work/sorted"
            mv "$work/sorted" "$work/$who.out"
        done
        compare "$case" "$work/rust.out" "$work/library.out"
    fi
done

awk -F '\t' -v base="${programs[0]}" '
    FNR == 1 && NR > 1 {
        printf "%-8s %-8s %10s %6s %9s %6s %9s %6s\n", "", "", "ms", "ratio", "MiB", "ratio", "own MiB", "ratio"
    }
    FNR == NR { if ($2 == base && NF == 5) { time[$1] = $3; memory[$1] = $4; own[$1] = $5 }; next }
    { printf "%-8s %-8s", $1 == before ? "" : $1, $2; before = $1 }
    NF < 5 || !($1 in time) { printf " %10s\n", $3; next }
    {
        printf " %10.1f %6.2f %9.1f %6.2f", $3 / 1000, $3 / time[$1], $4 / 1024, $4 / memory[$1]
        printf " %9.1f %6.2f\n", $5 / 1024, $5 / own[$1]
    }
    ' "$work/measures" "$work/measures"
