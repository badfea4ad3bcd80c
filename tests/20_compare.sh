#!/bin/sh
# Compares libcot.a with the independent implementation of documents 01 and 02 in tests/compare, and
# shows that the comparison finds deliberate faults. Words after the name go to the comparison:
#     tests/20_compare.sh --seed 7 --calls 4000000
set -eu
cd "$(dirname "$0")/.."

. tests/library

# A run that hangs must fail in the end. Words may ask for a longer one.
limit=600
if [ "$#" -gt 0 ]; then
    limit=7200
fi

rustc -O --edition 2021 -D warnings -L native="$(dirname "$library")" \
    -o "$out/compare" tests/compare/main.rs
status=0
timeout "$limit" "$out/compare" "$@" || status=$?
if [ "$status" -ne 0 ]; then
    echo "20_compare: FAILED: the comparison ended with status $status (124: over $limit s)" >&2
    exit 1
fi

# fault NAME LINE: with a model that has this fault the comparison must fail, and print such a line.
fault() {
    status=0
    timeout 180 "$out/compare" --fault "$1" >"$out/compare.fault" 2>&1 || status=$?
    if [ "$status" -ne 1 ] || ! grep -q "$2" "$out/compare.fault"; then
        cat "$out/compare.fault" >&2
        echo "20_compare: FAILED: the deliberate fault $1 was not found (status $status)" >&2
        exit 1
    fi
}

fault admit-equal 'single call.* difference: '
fault fresh-keeps 'difference: table byte [0-9]* (record [0-9]*, ticket) is 0x00'
fault sum-heat 'difference: sum byte '
# The call below the difference is a look.
fault look-warms '^  read of key [0-9]*, weight 0$'
fault keeps-ticket 'single call.* difference: table byte [0-9]* (record [0-9]*, ticket) is '
fault ticket-on-hit 'single call.* difference: ticket byte [0-7] is '
# A late fill in a list: the library refuses what the model stores.
fault any-ticket 'list.* difference: returned 9, the model 103'
# The call below the difference is a withdrawal.
fault free-takes-line '^  withdrawal of key [0-9]*$'
# Another victim: the answer is the same, and the new key is in another record.
fault victim-by-heat 'single call.* difference: table byte [0-9]* (record [0-9]*, key) is '
fault victim-least-slack 'single call.* difference: table byte [0-9]* (record [0-9]*, key) is '
fault victim-low-half 'single call.* difference: table byte [0-9]* (record [0-9]*, key) is '
# Another's line is taken.
fault coldest-by-slack 'single call.* difference: returned 4[0-9][0-9][0-9], the model 4[0-9][0-9][0-9]'
# Another store.
fault ring-key-minus-point 'random ring [0-9]*: difference: store byte [0-7] is '
fault ring-no-wrap 'random ring [0-9]*: difference: store byte [0-7] is '
fault ring-low-half 'random ring [0-9]*: difference: store byte [0-7] is '
fault ring-largest 'random ring [0-9]*: difference: store byte [0-7] is '
# The other one of two refusals, and a ring that the library refuses and the model does not.
fault ring-doubled-first 'random ring [0-9]*: difference: returned 12, the model 11$'
fault ring-neighbours-only 'random ring [0-9]*: difference: returned 11, the model 0; '
# Another answer.
fault scale-strict-average 'random epoch [0-9]*: difference: returned 106, the model 10[789]; '
# Other numbers in the same answer.
fault scale-new-lines-in-target 'random epoch [0-9]*: difference: out byte 2[4-9] (target under) '
fault scale-target-reduced 'random epoch [0-9]*: difference: out byte [0-9]* (target [a-z]*) is '
fault scale-halved-down 'random epoch [0-9]*: difference: out byte [0-9]* (K) is '
# Another answer again.
fault scale-tolerance-added 'random epoch [0-9]*: difference: returned 10[789], the model 10[789]'
fault scale-falls-through 'random epoch [0-9]*: difference: returned 109, the model 10[78]'
fault scale-zero-least-within 'random epoch [0-9]*: difference: returned 10[69], the model 10[789]'
# The other one of two refusals.
fault scale-sizes-last 'random epoch [0-9]*: difference: returned 1, the model 13$'
# What differs first in the target of a resize.
target="resize.* difference: target's"
# Other records are kept, by their heats or by their slacks.
fault sizes-hottest-dropped "$target table byte [0-9]* (record [0-9]*, key) is "
fault sizes-victims-by-heat "single $target table byte [0-9]* (record [0-9]*, key) is "
# Another ceiling, in a list too, and nothing else.
fault sizes-ceiling-left "list.* $target gauge byte \([89]\|1[0-5]\) is [^;]*$"
fault sizes-ceiling-to-first "list.* $target gauge byte \([89]\|1[0-5]\) is [^;]*$"
# Other states: other line numbers, filled for empty, other records on lines.
fault sizes-old-numbers "single $target table byte [0-9]* (record [0-9]*, state) is "
fault sizes-spare-filled "$target table byte [0-9]* (record [0-9]*, state) is 0x02, .* 0x03 "
fault sizes-coldest-last "single $target table byte [0-9]* (record [0-9]*, state) is "
fault sizes-hottest-last "$target table byte [0-9]* (record [0-9]*, state) is "
# Other tickets.
fault sizes-tickets-renewed "single $target table byte [0-9]* (record [0-9]*, ticket) is "
# Other bytes of lines, and nothing else.
fault sizes-lines-not-copied "single $target lines byte [0-9]* is [^;]*$"
fault sizes-copied-by-new-number "single $target lines byte [0-9]* is [^;]*$"
# A resize that the library refuses and the model does not, and the other one of two refusals.
fault sizes-serial-if-given 'single resize.* difference: returned 10, the model 0; '
fault sizes-target-last 'resize.* difference: returned 1, the model \(3\|10\)$'
# Bytes behind the kept records.
fault sizes-rest-kept "$target table byte [0-9]* (record [0-9]*, key) is 0x00, "
echo "20_compare: no difference; the deliberate faults admit-equal, fresh-keeps, sum-heat," \
    "look-warms, keeps-ticket, ticket-on-hit, any-ticket, free-takes-line, victim-by-heat," \
    "victim-least-slack, victim-low-half, coldest-by-slack, ring-key-minus-point, ring-no-wrap," \
    "ring-low-half, ring-largest, ring-doubled-first, ring-neighbours-only, scale-strict-average," \
    "scale-new-lines-in-target, scale-target-reduced, scale-halved-down, scale-tolerance-added," \
    "scale-falls-through, scale-zero-least-within, scale-sizes-last, sizes-hottest-dropped," \
    "sizes-victims-by-heat, sizes-ceiling-left, sizes-ceiling-to-first, sizes-old-numbers," \
    "sizes-spare-filled, sizes-coldest-last, sizes-hottest-last, sizes-tickets-renewed," \
    "sizes-lines-not-copied, sizes-copied-by-new-number, sizes-serial-if-given, sizes-target-last" \
    "and sizes-rest-kept are found"
