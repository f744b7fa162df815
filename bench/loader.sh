#!/usr/bin/env bash
# Measures lookups in an ELF image, from its file to the text: bench/lookup.sh beside Rust's addr2line and
# llvm-symbolizer alone, so that a large image takes minutes and not hours.
# Usage: bench/loader.sh IMAGE ROUNDS RUST
PEERS=llvm-symbolizer exec "$(dirname "$(readlink -f "$0")")/lookup.sh" "$@"
