#!/bin/sh
# The C host: the header as C and as C++, examples/host.c, examples/stores.c and examples/epochs.c,
# and document 01's sample calls with the edges, looks, tickets, withdrawals, equals, stores, epochs,
# resizes, fresh and levelled sums.
set -eu
cd "$(dirname "$0")/.."

. tests/library

printf '#include "cot.h"\n' >"$out/header.c"
printf '#include "cot.h"\n' >"$out/header.cpp"
gcc -std=c11 -Wall -Wextra -Werror -O2 -Iinclude -fsyntax-only "$out/header.c"
g++ -std=c++17 -Wall -Wextra -Werror -Iinclude -fsyntax-only "$out/header.cpp"

# run NAME SOURCE: compiles, runs within 60 seconds, and compares the output with
# tests/c/NAME.expected.
run() {
    gcc -std=c11 -Wall -Wextra -Werror -O2 -Iinclude "$2" "$library" -o "$out/$1"
    status=0
    timeout 60 "$out/$1" >"$out/$1.out" || status=$?
    if [ "$status" -ne 0 ]; then
        echo "10_c_host: FAILED: $2 ended with status $status (124: over 60 s)" >&2
        exit 1
    fi
    if ! diff -u "tests/c/$1.expected" "$out/$1.out"; then
        echo "10_c_host: FAILED: $2 printed something else than tests/c/$1.expected" >&2
        exit 1
    fi
}

run host examples/host.c
run stores examples/stores.c
run epochs examples/epochs.c
run sample tests/c/sample.c
echo "10_c_host: header good as C and C++; host.c, stores.c, epochs.c and" \
    "$(wc -l <tests/c/sample.expected) sample lines as expected"
