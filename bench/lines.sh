#!/usr/bin/env bash
# Times the reading of a line number program against plain loops. Usage: bench/lines.sh [BYTES] [RUNS]
exec "$(dirname "$0")/compare.sh" lines "${1:-16777216}" "${2:-3}"
