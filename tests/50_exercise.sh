#!/bin/sh
# Runs the program exercise where its output cannot be written: to a full device, to a descriptor
# that is closed or only read, to a pipe whose reader is gone, over a file's limit. Each run has to
# end by itself with status 0 and without a word of its own; so has one whose output is good.
set -eu
cd "$(dirname "$0")/.."

name=exercise
. tests/program

# Reads the status that a run of the program left in a file, and what it said besides.
ended() {
    status=$(cat "$out/exercise.status")
    if [ "$status" != 0 ] || [ -s "$out/exercise.err" ]; then
        echo "50_exercise: $1: status $status" >&2
        cat "$out/exercise.err" >&2
        exit 1
    fi
}

run() {
    rm -f "$out/exercise.status"
    status=0
    timeout 60 "$program" 2>"$out/exercise.err" || status=$?
    echo "$status" >"$out/exercise.status"
}

run >"$out/exercise.out"
ended "good output"
cmp "$out/exercise.out" crates/exercise/stdout
run >/dev/full
ended "full device"
run >&-
ended "closed output"
run 1<crates/exercise/stdout
ended "output that is only read"
(trap '' PIPE; { sleep 1; run; } | true)
ended "reader gone, its signal ignored"
(trap '' XFSZ; ulimit -f 1; run >"$out/exercise.out")
ended "file size limit, its signal ignored"
