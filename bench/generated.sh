#!/usr/bin/env bash
# Shows that other tools read the images that `linemap emit` writes, by generated.py, which says how.
# Usage: bench/generated.sh, where PROGRAM is another program than ./linemap
set -euo pipefail
top="$(dirname "$(dirname "$(readlink -f "$0")")")"
exec python3 "$top/bench/generated.py" "${PROGRAM:-$top/linemap}" emit
