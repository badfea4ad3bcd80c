#!/usr/bin/env bash
# Hit ratios of the library beside other policies: prints the tables and writes
# docs/hit-ratios.svg.
#   bash bench/hits.sh [--accesses N]
set -euo pipefail
cd "$(dirname "$0")/.."

library=crates/cot/out/libcot.a
out=target/bench

[ -f "$library" ] || (cd crates/cot && rt lib)
mkdir -p "$out"
rustc -O --edition 2021 -D warnings -L native="$(dirname "$library")" -l static=cot \
    -o "$out/hits" bench/hits.rs
"$out/hits" "$@" docs/hit-ratios.svg
