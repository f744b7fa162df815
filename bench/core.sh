#!/usr/bin/env bash
# Times the reading core against plain loops. Usage: bench/core.sh [BYTES] [RUNS]
exec "$(dirname "$0")/compare.sh" core "${1:-16777216}" "${2:-3}"
