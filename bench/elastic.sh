#!/usr/bin/env bash
# Sizes of the cache over epochs as cot_scale tells them: prints the tables and
# writes docs/elastic.svg.
#   bash bench/elastic.sh
set -euo pipefail
cd "$(dirname "$0")/.."

library=crates/cot/out/libcot.a
out=target/bench

[ -f "$library" ] || (cd crates/cot && rt lib)
mkdir -p "$out"
rustc -O --edition 2021 -D warnings -L native="$(dirname "$library")" -l static=cot \
    -o "$out/elastic" bench/elastic.rs
"$out/elastic" docs/elastic.svg
