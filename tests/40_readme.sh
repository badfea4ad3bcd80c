#!/bin/sh
# Proves, builds and runs the Rattle host that README.md shows, in a copy of the crates.
set -eu
cd "$(dirname "$0")/.."

room=$(mktemp -d)
trap 'rm -rf "$room"' EXIT
cp crates.txt "$room"
# what is built already need not be proved again
for part in crates/*/src crates/*/specs crates/*/proofs crates/*/out/rlib; do
    if [ -d "$part" ]; then
        mkdir -p "$room/${part%/*}"
        cp -R "$part" "$room/$part"
    fi
done
sed -n 's/^    \(myhost: .*\)$/\1/p' README.md >>"$room/crates.txt"
mkdir -p "$room/crates/myhost/src"
sed -n '/^```rust$/,/^```$/{//!p;}' README.md >"$room/crates/myhost/src/main.rt"

cd "$room/crates/myhost"
rt run >"$room/said" 2>&1 </dev/null || {
    tail -n 20 "$room/said"
    exit 1
}
echo "40_readme: the host of README.md is proved, and ran"
