#!/usr/bin/env bash
# Times the decompression of an image's debug sections beside Python's zlib and objcopy, by inflate.py, which says how.
# Usage: bench/inflate.sh IMAGE [ROUNDS], where BENCH is another program than that of crates/linemap_bench
set -euo pipefail
top="$(dirname "$(dirname "$(readlink -f "$0")")")"
if [ -z "${BENCH:-}" ]; then
    "$top/tools/build" linemap_bench
fi
exec python3 "$top/bench/inflate.py" "${BENCH:-$top/crates/linemap_bench/out/linemap_bench}" "$@"
