#!/usr/bin/env bash
# Times the reading of units against plain loops. Usage: bench/units.sh [BYTES] [RUNS]
exec "$(dirname "$0")/compare.sh" units "${1:-16777216}" "${2:-3}"
