#!/usr/bin/env bash
# Nanoseconds a call by what it finds in the table, the library beside plain C
# and, where its archive is named, beside an older library.
#   bash bench/cases.sh [OLDER.a]
set -euo pipefail
cd "$(dirname "$0")/.."

library=crates/cot/out/libcot.a
older=${1:-}
out=target/bench
flags=(-O2 -std=c11 -Wall -Wextra -Werror)
padding=-Wa,-mbranches-within-32B-boundaries

[ -f "$library" ] || (cd crates/cot && rt lib)
mkdir -p "$out"

# What a file exports, under another first word.
renamed() {
    nm -g --defined-only "$1" | awk -v from="$2" -v to="$3" \
        'NF == 3 && $3 ~ "^" from "_" { name = $3; sub("^" from, to, name); print $3, name }' > "$out/names"
    objcopy --redefine-syms="$out/names" "$1" "$4"
}

gcc "${flags[@]}" -c bench/plain.c -o "$out/plain.o"
gcc "${flags[@]}" "$padding" -c bench/plain.c -o "$out/padded-plain.o"
renamed "$out/padded-plain.o" plain padded "$out/padded.o"
linked=("$library")
if [ -n "$older" ]; then
    renamed "$older" cot older "$out/older.a"
    linked+=("$out/older.a")
    flags+=(-DOLDER)
fi
# The padded version comes last: it is aligned to 32 bytes, and what followed it
# would not move by 16.
linked+=("$out/plain.o" "$out/padded.o")
gcc "${flags[@]}" -Iinclude -c bench/cases.c -o "$out/cases.o"

# As in speed.sh: linked at four places, 16 bytes apart, the best of the four.
for place in 16 32 48 64; do
    printf '.text\n.zero %d\n.section .note.GNU-stack,"",@progbits\n' "$place" |
        gcc -c -x assembler - -o "$out/place.o"
    gcc -o "$out/cases-$place" "$out/place.o" "$out/cases.o" "${linked[@]}" -lm
    "$out/cases-$place" > "$out/cases-$place.txt"
done

echo "machine: $(awk -F": " "/^model name/ { print \$2; exit }" /proc/cpuinfo), $(nproc) processors; $(gcc --version | head -n 1)"
echo
awk -F'|' '
    { row = $1 "|" $2 }
    !(row in sides) { rows[++n] = row; sides[row] = NF - 2 }
    { for (i = 3; i <= NF; i++) if (!((row, i) in best) || $i + 0 < best[row, i]) best[row, i] = $i + 0 }
    END {
        split("plain padded older", name, " ")
        printf "| %-27s | %4s | %10s |", "Call", "K", "library ns"
        for (i = 1; i < sides[rows[1]]; i++) printf " %6s ns | ratio |", name[i]
        printf "\n|%s|-----:|-----------:|", "-----------------------------"
        for (i = 1; i < sides[rows[1]]; i++) printf "----------:|------:|"
        print ""
        for (r = 1; r <= n; r++) {
            row = rows[r]
            split(row, part, "|")
            printf "| %-27s | %4d | %10.1f |", part[1], part[2], best[row, 3]
            for (i = 4; i < 3 + sides[row]; i++)
                if (best[row, i]) printf " %9.1f | %5.2f |", best[row, i], best[row, 3] / best[row, i]
                else printf " %9s | %5s |", "-", "-"
            print ""
        }
    }' "$out"/cases-{16,32,48,64}.txt
