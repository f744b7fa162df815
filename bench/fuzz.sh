#!/usr/bin/env bash
# Looks for damaged debug information that the programs answer wrongly, slowly or not at all. Usage:
#     PROCESSES=N bench/fuzz.sh MINUTES [FOLDER]
# fuzz.py says what it does with them, in N processes side by side. FOLDER has images as further seeds, such as those of a
# distribution. The programs are proved and built first, unless what is there is current.
set -euo pipefail
top="$(dirname "$(dirname "$(readlink -f "$0")")")"
for name in ${CASES-linemap_cases} ${LINEMAP-linemap_program} ${BENCH-linemap_bench}; do
    [ ! -d "$top/crates/$name" ] || "$top/tools/build" "$name"
done
export SECTIONS="${SECTIONS:-$top/crates/linemap_cases/data}"
exec nice python3 "$top/bench/fuzz.py" "$@"
