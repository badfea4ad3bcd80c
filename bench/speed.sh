#!/usr/bin/env bash
# Nanoseconds and instructions a call of the library beside the plain C version,
# rare calls, resizes, stores of a ring and the ends of epochs too.
#   bash bench/speed.sh [--calls N]
set -euo pipefail
cd "$(dirname "$0")/.."

library=crates/cot/out/libcot.a
out=target/bench
flags=(-O2 -std=c11 -Wall -Wextra -Werror)
# Some processors are slow at a jump that crosses or ends at a multiple of 32
# bytes. Padded, the plain version has none; the library has them where they fall.
padding=-Wa,-mbranches-within-32B-boundaries

[ -f "$library" ] || (cd crates/cot && rt lib)
mkdir -p "$out"
gcc "${flags[@]}" -c bench/speed.c -o "$out/speed.o"
gcc "${flags[@]}" -c bench/plain.c -o "$out/plain.o"
gcc "${flags[@]}" "$padding" -c bench/plain.c -o "$out/padded.o"
gcc "${flags[@]}" -Iinclude -c bench/rare.c -o "$out/rare.o"
gcc "${flags[@]}" -Iinclude -c bench/resize.c -o "$out/resize.o"
gcc "${flags[@]}" -Iinclude -c bench/store.c -o "$out/store.o"
gcc "${flags[@]}" -Iinclude -c bench/scale.c -o "$out/scale.o"
gcc "${flags[@]}" "$padding" -o "$out/width" bench/width.c

# The place of a loop in memory changes its speed. The programs are linked at
# four places, 16 bytes apart; the best of the four counts.
for place in 16 32 48 64; do
    printf '.text\n.zero %d\n.section .note.GNU-stack,"",@progbits\n' "$place" |
        gcc -c -x assembler - -o "$out/place.o"
    for version in plain padded; do
        gcc -o "$out/$version-$place" "$out/place.o" "$out/speed.o" "$out/$version.o" "$library" -lm
    done
    gcc -o "$out/rare-$place" "$out/place.o" "$out/rare.o" "$out/plain.o" "$library" -lm
    gcc -o "$out/resize-$place" "$out/place.o" "$out/resize.o" "$out/plain.o" "$library" -lm
    gcc -o "$out/store-$place" "$out/place.o" "$out/store.o" "$library" -lm
    gcc -o "$out/scale-$place" "$out/place.o" "$out/scale.o" "$library" -lm
done

# Runs program $1 at each place, and prints its rows with the best time of the
# library and the best of plain C, which its last columns tell, and their ratio.
beside_plain() {
    for place in 16 32 48 64; do
        "$out/$1-$place" > "$out/$1-$place.txt"
    done
    awk -F'|' '
        FNR < 3 { if (NR == FNR) print; next }
        { row = $2; for (i = 3; i < NF - 3; i++) row = row "|" $i; l = $(NF - 3); p = $(NF - 2) }
        !(row in library) { rows[++n] = row; library[row] = l; plain[row] = p }
        l + 0 < library[row] + 0 { library[row] = l }
        p + 0 < plain[row] + 0 { plain[row] = p }
        END {
            for (i = 1; i <= n; i++) {
                row = rows[i]
                printf "|%s|%s|%s| %5.2f |\n", row, library[row], plain[row], library[row] / plain[row]
            }
        }' "$out/$1"-{16,32,48,64}.txt
}

echo "machine: $(awk -F": " "/^model name/ { print \$2; exit }" /proc/cpuinfo), $(nproc) processors; $(gcc --version | head -n 1)"
echo
echo "Nanoseconds a call, best of all runs:"
echo
for version in plain padded; do
    for place in 16 32 48 64; do
        "$out/$version-$place" "$@" > "$out/$version-$place.txt"
    done
done
awk -F'|' '
    FNR < 3 { next }
    { row = $2 "|" $3 "|" $4; padded = FILENAME ~ /padded-[0-9]+.txt$/ }
    !(row in library) { rows[++n] = row; library[row] = $5; hits[row] = $8 }
    $5 + 0 < library[row] + 0 { library[row] = $5 }
    !((padded, row) in plain) || $6 + 0 < plain[padded, row] + 0 { plain[padded, row] = $6 }
    END {
        print "|    K |   C | Zipf | library ns | plain ns | ratio | padded ns | ratio | hit ratio |"
        print "|-----:|----:|-----:|-----------:|---------:|------:|----------:|------:|----------:|"
        for (i = 1; i <= n; i++) {
            row = rows[i]
            printf "|%s|%s|%s| %5.2f |%s| %5.2f |%s|\n", row, library[row], plain[0, row],
                   library[row] / plain[0, row], plain[1, row], library[row] / plain[1, row], hits[row]
        }
    }' "$out"/{plain,padded}-{16,32,48,64}.txt

echo
echo "Nanoseconds a call that is rare, best of all runs:"
echo
beside_plain rare

echo
echo "Microseconds a resize, best of all runs:"
echo
beside_plain resize

echo
echo "Nanoseconds a call for a key's store, best of all runs:"
echo
for place in 16 32 48 64; do
    "$out/store-$place" > "$out/store-$place.txt"
done
awk -F'|' '
    FNR < 3 { if (NR == FNR) print; next }
    { row = $2 "|" $3 }
    !(row in library) { rows[++n] = row; library[row] = $4; pairs[row] = $5; qsort[row] = $7 }
    $4 + 0 < library[row] + 0 { library[row] = $4 }
    $5 + 0 < pairs[row] + 0 { pairs[row] = $5 }
    $7 + 0 < qsort[row] + 0 { qsort[row] = $7 }
    END {
        for (i = 1; i <= n; i++) {
            row = rows[i]
            printf "|%s|%s|%s| %5.2f |%s| %5.2f |\n", row, library[row], pairs[row],
                   library[row] / pairs[row], qsort[row], library[row] / qsort[row]
        }
    }' "$out"/store-{16,32,48,64}.txt

echo
echo "Nanoseconds a call at the end of an epoch, best of all runs:"
echo
beside_plain scale

echo
echo "Nanoseconds an order test in plain C, by the width of a record:"
echo
"$out/width"

if ! command -v valgrind > /dev/null; then
    echo "speed.sh: no valgrind here, so no instruction counts" >&2
    exit 1
fi

# Prints instructions and calls of a run of $4 requests, and leaves its profile
# for callgrind_annotate.
count() {
    local calls profile="$out/callgrind-$1-$2-$3.out"
    calls=$(valgrind --quiet --tool=callgrind --callgrind-out-file="$profile" \
        "$out/plain-16" --only "$1" --k "$2" --zipf "$3" --calls "$4")
    echo "$(sed -n 's/^totals: //p' "$profile") $calls"
}

# Instructions a call between request 10,000 and request 15,000: what comes
# before, start-up included, cancels in the difference of two runs.
instructions() {
    { count "$@" 10000; count "$@" 15000; } |
        awk 'NR == 1 { i = $1; c = $2 } NR == 2 { printf "%.0f", ($1 - i) / ($2 - c) }'
}

echo
echo "Instructions a call, by callgrind:"
echo
echo "|    K |   C | Zipf | library | plain | ratio |"
echo "|-----:|----:|-----:|--------:|------:|------:|"
for zipf in 0.9 1.2; do
    for k in 16 128 1024; do
        library_count=$(instructions library $k $zipf)
        plain_count=$(instructions plain $k $zipf)
        awk -v k=$k -v zipf=$zipf -v a="$library_count" -v b="$plain_count" 'BEGIN {
            printf "| %4d | %3d | %4.1f | %7d | %5d | %5.2f |\n", k, k / 4, zipf, a, b, a / b }'
    done
done
