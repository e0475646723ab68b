#!/bin/sh
# Prints how many instructions a call of the library takes: notes to a plat, and on a kept plat descriptions of one
# part, of lots and parts in two and three sections, of parts in three sections, of three whole sections, of land named
# twice, and of 50 and 100 parts; the canonical text of five of them; a description to land, and land of one section
# combined with other land and compared to it; the readings of texts; and calls by lot tables. A count is that of 2,000
# calls less that of 1,000, by valgrind's callgrind. Beside it are the count in bench/expected-library and the ratio of
# the two; the status is 1 if a ratio is over 1.02, or if the last 50 parts take over 1.05 times as many as the 49
# before them. It then prints how many descriptions are answered per second on one core, from C and from Python. It
# builds lib/ as `make lib` does, unless the first word is `built`.
set -eu
[ "${1:-}" = built ] || sh tools/library.sh > /dev/null
work=$(mktemp -d)
trap 'rm -rf "$work"' EXIT
"${CC:-cc}" -std=c11 -O2 -Wall -Wextra -Werror -Iinclude -o "$work/library" bench/library.c lib/libtownship.a
# The C library clears and copies large regions by one instruction, which callgrind counts once for each byte. This
# makes it use wide stores instead, so that each instruction counts once.
once=glibc.cpu.x86_rep_stosb_threshold=1000000:glibc.cpu.x86_rep_movsb_threshold=1000000
count() {
    env -i PATH="$PATH" GLIBC_TUNABLES="$once" valgrind --tool=callgrind --callgrind-out-file=/dev/null \
        "$work/library" "$@" 2>&1 > /dev/null | sed -n 's/.*Collected : *//p'
}
too_much=0
row() {
    found=$((($(count "${3:-samples/b1.csv}" "$2" 2000) - $(count "${3:-samples/b1.csv}" "$2" 1000)) / 1000))
    expected=$(awk -v name="$1" 'substr($0, index($0, " ") + 1) == name { print $1 }' bench/expected-library)
    ratio=new
    if [ -n "$expected" ]; then
        ratio=$(awk -v found="$found" -v expected="$expected" 'BEGIN { printf "%.4f", found / expected }')
        if [ $((100 * found)) -gt $((102 * expected)) ]; then
            too_much=$((too_much + 1))
            ratio="$ratio: too much"
        fi
    fi
    printf '%-56s %10s  %s\n' "$1" "$found" "$ratio"
}
row 'field notes to a plat' read
row 'one part' one
one=$found
row 'lots and a part in two sections' two
row 'parts in three sections' three
row 'three whole sections' whole
row 'lots and parts in three sections' mixed
row 'refused 67' overlap
row 'canonical text of one part' text-one
row 'canonical text of parts in three sections' text-three
row 'canonical text of lots and a part in two sections' text-two
row 'canonical text of lots and parts in three sections' text-mixed
row 'canonical text of three whole sections' text-whole
row '50 parts' fifty
fifty=$found
row '100 parts' hundred
if [ $((100 * (found - fifty))) -gt $((105 * (fifty - one))) ]; then
    echo 'too much: the last 50 parts'
    too_much=$((too_much + 1))
fi
row 'land of one part' land
row 'land combined with other land' combine
row 'land compared to other land' compare
row 'the readings of a description' same
row 'the readings of a text of a lease' 'a lease'
row 'the readings of white space between parts' ways
# Calls by a lot table. The lots of the second table are the standard ones, too, but it says where they lie, so calls by
# it take the way of any plat: at most 1.3 times as many instructions. The third has halves of quarter-quarters, in which
# three lots lie.
for table in standard own; do
    of="by a table of the plat's own lots"
    [ "$table" = own ] || of='by a table of the standard lots'
    row "two sections, $of" table-two "bench/lots-$table.csv"
    row "three whole sections, $of" table-whole "bench/lots-$table.csv"
    row "land of two sections, $of" table-land "bench/lots-$table.csv"
    row "canonical text, $of" table-text "bench/lots-$table.csv"
done
row 'a table of the standard lots to lots' table-read bench/lots-standard.csv
row 'a table with land to lots' table-read bench/lots-own.csv
row 'a table with land and lakes to lots' table-read bench/lots-lake.csv
row 'three lots in halves, by a table with lakes' halves-table-two bench/lots-lake.csv
row 'land of three lots in halves, by a table with lakes' halves-table-land bench/lots-lake.csv
row 'text of three lots in halves, by a table with lakes' halves-table-text bench/lots-lake.csv

"$work/library" samples/b1.csv one 1000000 |
    awk '{ printf "%-48s %10.0f a second\n", "one part, from C", 1000000 / $3 }'
if python=$(command -v "${PYTHON:-python3}"); then
    TOWNSHIP_LIBRARY=$PWD/lib/libtownship.so PYTHONPATH=$PWD/bindings/python/src PYTHONDONTWRITEBYTECODE=1 \
        "$python" - << 'END'
import time
import township

plat = township.Plat.open("samples/b1.csv")
texts = ["sec. 14, NE1/4."] * 200_000
begun = time.process_time()
for answer in plat.acres_of(texts):
    pass
taken = time.process_time() - begun
print(f"{'one part, from Python':48} {len(texts) / taken:10.0f} a second")
END
fi
[ "$too_much" = 0 ]
