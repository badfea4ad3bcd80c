#!/bin/sh
# Runs the program replay on further journals and compares all that it prints: empty, every short
# end, also around the pieces that it reads, the sample, late fills, looks, withdrawals, unknown
# forms, odd pieces through a pipe, one long enough that the total passes its limit, a million
# records. Then closes its output, and it must end. Each run has a time limit.
set -eu
cd "$(dirname "$0")/.."

name=replay
. tests/program

rustc -O --edition 2021 -D warnings -o "$out/replay" tests/replay/main.rs
"$out/replay" "$program"
