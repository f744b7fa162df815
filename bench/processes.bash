# For scripts that compare programs by processor time and peak memory, which source it: commands are added to a case and
# measured side by side, case after case, and then printed as a table. `$work` is a folder for such a script's files.
top="$(dirname "$(dirname "$(readlink -f "${BASH_SOURCE[0]}")")")"
work="$(mktemp -d)"
trap 'rm -rf "$work"' EXIT

# Builds the program of a crate, that of ./linemap where none is named, and prints where it is.
built_program() { # [CRATE]
    "$top/tools/build" "$@"
    echo "$top/crates/${1:-linemap_program}/out/${1:-linemap_program}"
}

# Prints addresses of an image's .text, by a linear congruential generator.
addresses_in_text() { # IMAGE COUNT
    local begin size state=1 number
    read -r begin size < <(readelf -SW "$1" | awk '{ sub(/^ *\[ *[0-9]+\] */, "") } $1 == ".text" { print $3, $5 }')
    for (( number = 0; number < $2; number++ )); do
        state=$(( (state * 6364136223846793005 + 1442695040888963407) & 0x7fffffffffffffff ))
        printf '0x%x\n' $(( 0x$begin + (state >> 16) % 0x$size ))
    done
}

# Adds a command to the next case.
add() { # NAME INPUT OUTPUT WORD..
    local IFS=$'\t'
    printf '%s\n' "$*" >> "$work/commands"
}

# Measures what was added, as a case.
measure() { # CASE ROUNDS SECONDS [own]
    python3 "$top/bench/took.py" "${@:2}" < "$work/commands" | sed "s/^/$1\t/" >> "$work/measures"
    rm "$work/commands"
}

# Says where two programs answer differently, but for discriminators, which not all of them print.
compare() { # CASE THEIRS OURS
    local lines
    lines="$(diff <(plain "$2") <(plain "$3") | grep -c '^[<>]' || true)"
    [ "$lines" = 0 ] || echo "$1: $lines lines of ${3##*/} and ${2##*/} differ"
}

plain() { # ANSWERS
    sed 's/ (discriminator [0-9]*)$//' "$1"
}

# Prints a line for each case and program: milliseconds of processor time and MiB, each with its multiple of what the
# program BASE took.
print_measures() { # BASE
    awk -F '\t' -v base="$1" '
        FNR == 1 && NR > 1 { printf "%-14s %-16s %10s %6s %9s %6s\n", "", "", "ms", "ratio", "MiB", "ratio" }
        FNR == NR { if ($2 == base && NF == 4) { time[$1] = $3; memory[$1] = $4 }; next }
        { printf "%-14s %-16s", $1 == before ? "" : $1, $2; before = $1 }
        NF < 4 { printf " %10s\n", $3; next }
        !($1 in time) { printf " %10.1f %6s %9.1f\n", $3 / 1000, "", $4 / 1024; next }
        { printf " %10.1f %6.2f %9.1f %6.2f\n", $3 / 1000, $3 / time[$1], $4 / 1024, $4 / memory[$1] }
        ' "$work/measures" "$work/measures"
}
