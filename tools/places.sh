#!/usr/bin/env bash
# Counts the places of each point of docs/DESIGN-PASS.md in the sources of a commit: bash tools/places.sh COMMIT [-l]
# With -l it lists them, too.
set -euo pipefail
cd "$(dirname "$0")/.."
commit=${1:-HEAD}
list=${2:-}

count() { # POINT NAME PATTERN: lines of crates/*/src that match
    local found
    found=$(git grep -nE -e "$3" "$commit" -- 'crates/*/src/*.rt' | sed "s/^$commit:crates\///" || true)
    printf '%s  %-44s %4d\n' "$1" "$2" "$(printf '%s' "$found" | grep -c '' || true)"
    if [ -n "$list" ] && [ -n "$found" ]; then printf '%s\n' "$found" | sed 's/^/      /'; fi
}

signatures() { # POINT NAME WORDS..: functions that take parameters of all these names
    local point=$1 name=$2
    shift 2
    local found
    found=$(for f in $(git ls-tree -r --name-only "$commit" crates | grep '/src/.*\.rt$'); do
        git show "$commit:$f" | python3 -c '
import re, sys
text, path, words = sys.stdin.read(), sys.argv[1], sys.argv[2:]
for m in re.finditer(r"fn (\w+)\s*(<[^>]*>)?\(([^)]*)\)", text):
    if all(re.search(r"\b%s:" % w, m[3]) for w in words):
        print(path.replace("crates/", ""), m[1])
' "$f" "$@"
    done)
    printf '%s  %-44s %4d\n' "$point" "$name" "$(printf '%s' "$found" | grep -c '' || true)"
    if [ -n "$list" ] && [ -n "$found" ]; then printf '%s\n' "$found" | sed 's/^/      /'; fi
}

count 1 'enums' '^ *(pub )?enum '
count 1 'uses of Found, Verdict, Completion, Levels' '\b(Found|Verdict|Completion|Levels)::'
count 1 'refused or done as a case among others' '\b(Answer|Entry)::(Refused|Done)\b|^    (Refused\(u64\)|Done),'
count 1 'constants that number a refusal' 'const (WRONG|NOT_IN|NO_LINE|ALREADY|UNKNOWN|SHORT_END|STALE|SERIAL_SPENT)[A-Z_]*: u64'
count 1 'tests of a kind by its number' '\bkind == [0-9]'
count 1 'tests of a state by its number' 'state (<|<=|==|%|/|-) [0-9]|\b[0-9] < r\.state|< limit'
count 1 'fields that say how a run or a write went' '^    (pub )?(whole|wrote|filled|found): bool,'
count 1 'values that stand for none' '^    n$|^    lines$|= (LARGEST|u64::MAX);|let mut best = n'
count 2 'setters' 'fn with_[a-z]+\('
count 2 'wrappers of a call by another loan of the gauge' '= (cache|lent)::(read|update|age)\('
count 2 'exports that read, lend and put back a gauge' 'put_gauge\(gauge, '
count 2 'bytes made wide' 'fn wide\('
count 2 'steps that give a ticket' 'let ticket = gauge\.serial \+ 1'
count 2 'decoders with one contract' 'fn (decode|read_at)\('
count 3 'loops by while or loop' '^ *(while|loop)\b'
count 3 'indices counted by hand' '^ *[a-z]+ \+= 1;$'
count 3 'loops by for' '^ *for '
count 4 'equality, copies and conversions by hand' 'fn (is_zero|with_[a-z]+|fresh_gauge|wide|clear|copy_picture|put_bytes)\('
count 4 'printing by hand' 'fn (say[a-z_]*|put_digits|put_word|put_number|put_row)\('
count 4 'numbers of an answer or a completion' 'fn (number_of|completion_number)\('
signatures 5 'functions of table, gauge and lines' table gauge lines
signatures 5 'functions of piece and out' piece out
count 5 'the bound of an answer in a contract' 'answer_bound|result_bound'
count 5 'a line fits, in a contract' 'requires .*LinesFit'
count 6 'a place or an end beside a slice' '(bytes|out|table|journal): &(mut )?\[u8\], (at|i|from): usize'
count 7 'closures and function parameters' '\bFn(Once|Mut)?\('
