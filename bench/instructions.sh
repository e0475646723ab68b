#!/bin/sh
# Prints how many instructions the whole process of township takes, from its start to its end: on standard
# input for the sample, for the longest refused input, and for small parts; for the commands on the sample;
# for the spelling of small parts and of half as many; for reports on 1,000 tracts and on 500; for the texts
# whose bytes cost the most to read; and for refused input of each kind. Each count is followed by its ratio to
# the one in bench/expected, or by `new` if there is none, and then by its ratio to the count from before
# refusals were explained and doubtful places noted: bench/unexplained contains that count, and the largest ratio
# allowed. The status is 1 if the first ratio is over 1.02, if the second is over the largest allowed, or if a
# row of these files is missing.
#
# Builds ./township and measures it; a program that is named is measured without building it.
set -eu
[ $# -gt 0 ] || sh tools/build.sh
program=${1:-./township}
# The input to count is on standard input, or is named by words. The environment is left out, because each
# of its variables would be counted too.
count() {
    env -i PATH="$PATH" valgrind --tool=callgrind --callgrind-out-file=/dev/null "$program" "$@" \
        2>&1 >/dev/null | sed -n 's/.*Collected : *//p'
}
work=$(mktemp -d)
trap 'rm -rf "$work"' EXIT
too_much=0
too_many_times=0
found=0
# The count of a row in a file, if it is there.
kept() { awk -v name="$2" 'substr($0, index($0, " ") + 1) == name { print $1 }' "$1"; }
# The count of a row from before refusals were explained, and the largest ratio to it that is allowed.
before() {
    awk -v name="$1" '$0 == $1 " " $2 " " name { print $1, $2 }' bench/unexplained
}
# A row: its name, its count, anything else to show with it, and the count of the whole process, if that is
# different.
row() {
    expected=$(kept bench/expected "$1")
    ratio=new
    if [ -n "$expected" ]; then
        found=$((found + 1))
        ratio=$(awk -v count="$2" -v expected="$expected" 'BEGIN { printf "%.4f", count / expected }')
        if [ $((100 * $2)) -gt $((102 * expected)) ]; then
            too_much=$((too_much + 1))
            ratio="$ratio: too much"
        fi
    fi
    before=$(before "$1")
    if [ -n "$before" ]; then
        found=$((found + 1))
        whole=${4-$2}
        times=$(awk -v count="$whole" -v was="${before% *}" 'BEGIN { printf "%.3f", count / was }')
        ratio="$ratio, $times times"
        if awk -v count="$whole" -v was="${before% *}" -v most="${before#* }" 'BEGIN { exit !(count > was * most) }'; then
            too_many_times=$((too_many_times + 1))
            ratio="$ratio: too many"
        fi
    fi
    printf '%-72s %10s %5s  %s\n' "$1" "$2" "${3-}" "$ratio"
}
# The size of a file as people write it, such as 63,687.
bytes() {
    wc -c < "$work/$1" | tr -d ' ' | sed -e :more -e 's/^\([0-9][0-9]*\)\([0-9]\{3\}\)/\1,\2/' -e 't more'
}
# A description of 65,536 spaces, a line feed, and the sample's notes with line feeds up to 65,536 bytes.
spaces() { head -c "$1" /dev/zero | tr '\0' "$2"; }
cat samples/description.txt samples/b1.csv > "$work/sample"
{
    spaces 65536 ' '
    echo
    cat samples/b1.csv
    spaces $((65536 - $(wc -c < samples/b1.csv))) '\n'
} > "$work/longest"
# The corners of quarters, from the largest to the smallest: four quarters make a square of 2.5 acres, five
# make a place, and the number in base four says which square or place of its section it is.
quarters='
    function quarters(number, size,   text) {
        for (; size >= 1; size /= 4) text = text corner[int(number / size) % 4 + 1]
        return text
    }
    BEGIN { split("NE1/4 NW1/4 SW1/4 SE1/4", corner, " ") }'
# A description that names each square of 2.5 acres of eleven sections, 2,816 of them, and the sample's notes.
{
    awk "$quarters"'BEGIN {
        split("8 9 10 11 12 13 14 15 16 17 20", sections, " ")
        for (s = 1; s <= 11; s++) {
            printf "%ssec. %s", (s > 1 ? "; " : ""), sections[s]
            for (p = 0; p < 256; p++) printf ", %s", quarters(p, 64)
        }
        printf ".\n"
    }' | tee "$work/parts"
    cat samples/b1.csv
} > "$work/squares"
# The same for places: each place of two sections, 2,048 in all.
{
    awk "$quarters"'BEGIN {
        for (s = 8; s <= 9; s++) {
            printf "%ssec. %s", (s > 8 ? "; " : ""), s
            for (p = 0; p < 1024; p++) printf ", %s", quarters(p, 256)
        }
        printf ".\n"
    }' | tee "$work/place-parts"
    cat samples/b1.csv
} > "$work/places"
# A checkerboard: every other square of 2.5 acres of the 25 sections without lots, of which no two can be
# joined; or every other place of the first six of them. The number is that of squares along a section's side.
chessboard() {
    awk -v across="$1" -v last="$2" 'BEGIN {
        quarter[0, 0] = "SE\xc2\xbc"; quarter[1, 0] = "SW\xc2\xbc"
        quarter[0, 1] = "NE\xc2\xbc"; quarter[1, 1] = "NW\xc2\xbc"
        for (s = 8; s <= last; s++) {
            if (s == 18 || s == 19 || s == 30 || s == 31) continue
            printf "%ssec %s", (s > 8 ? ";" : ""), s
            for (c = 0; c < across; c++)
                for (r = c % 2; r < across; r += 2) {
                    printf ","
                    for (size = 1; size < across; size *= 2)
                        printf "%s", quarter[int(c / size) % 2, int(r / size) % 2]
                }
        }
    }'
}
chessboard 16 36 > "$work/chessboard"
chessboard 32 13 > "$work/place-chessboard"
# A list of 1,000 tracts, each another square of 2.5 acres of sections 8 to 11; and each another place of
# section 8.
awk "$quarters"'BEGIN {
    print "name,description"
    for (n = 0; n < 1000; n++) printf "%s,\"sec. %s, %s.\"\n", n + 1, 8 + int(n / 256), quarters(n, 64)
}' > "$work/tracts"
awk "$quarters"'BEGIN {
    print "name,description"
    for (n = 0; n < 1000; n++) printf "%s,\"sec. 8, %s.\"\n", n + 1, quarters(n, 256)
}' > "$work/place-tracts"
head -n 501 "$work/tracts" > "$work/half-of-tracts"
# The same tracts with names of 64 bytes, which collide in a hashed set; and with similar names that do not
# collide. bench/colliding-names contains the 13 bytes by which each differs from the others: five of a count,
# and eight that undo, in the hasher's first step, the change that the count made.
names() {
    awk -v part="$1" 'NR == FNR { end[NR] = $0; next }
        FNR == 1 { print; next }
        {
            name = "parcel of  " (part == "end" ? end[FNR - 1] : FNR - 1)
            while (length(name) < 64) name = name "-"
            sub(/^[^,]*/, "")
            print name $0
        }' bench/colliding-names "$work/tracts"
}
names end > "$work/colliding"
names count > "$work/long-names"
# A list of 1,000 tracts near the size limit, each of six squares in words, each on its own line.
awk 'BEGIN {
    print "name,description"
    for (n = 0; n < 1000; n++) {
        printf "parcel %s,\"", n + 1
        for (p = 6 * n; p < 6 * n + 6; p++) {
            s = int(p / 256)
            if (p == 6 * n || p % 256 == 0)
                printf "%ssec. %s", (p == 6 * n ? "" : "; "), 8 + s + 2 * (s > 9) + 2 * (s > 19)
            printf ",\n%60s", ""
            for (size = 1; size < 16; size *= 2)
                printf "%s%s1/2 of the %s1/2", (size > 1 ? " of the " : ""),
                    (int(p / size) % 2 ? "N" : "S"), (int(p / 16 / size) % 2 ? "W" : "E")
        }
        print ".\""
    }
}' > "$work/words"
head -c $(($(wc -c < "$work/parts") / 2)) "$work/parts" | sed '$s/[,;][^,;]*$//' > "$work/half-of-parts"
: > "$work/empty"
printf 'secs. 1 thru 36.' > "$work/all"
heading() { printf '%-72s %10s %5s  %s\n' "$1" instructions "$2" 'ratio to bench/expected'; }
heading 'input' ''
row "the sample, $(bytes sample) bytes, on standard input" "$(count < "$work/sample")"
row 'nothing at all' "$(count < "$work/empty")"
row "the longest description and notes, refused, $(bytes longest) bytes" "$(count < "$work/longest")"
row "2,816 squares of 2.5 acres, each named, $(bytes squares) bytes, on standard input" \
    "$(count < "$work/squares")"
row "2,048 places, each named, $(bytes places) bytes, on standard input" "$(count < "$work/places")"
row 'acres of all 36 sections' "$(count acres samples/b1.csv "$work/all")"
for account in exact plat; do
    row "acres of all 36 sections, --account $account" \
        "$(count acres --account "$account" samples/b1.csv "$work/all")"
done
row 'plat' "$(count plat samples/b1.csv)"
row 'normal of the 2,816 squares' "$(count normal samples/b1.csv "$work/parts")"
row 'normal of half of them' "$(count normal samples/b1.csv "$work/half-of-parts")"
row 'normal of the 2,048 places' "$(count normal samples/b1.csv "$work/place-parts")"
row "normal of a chessboard, 3,200 squares that can't be joined, $(bytes chessboard) bytes" \
    "$(count normal samples/b1.csv "$work/chessboard")"
row "normal of a chessboard, 3,072 places that can't be joined, $(bytes place-chessboard) bytes" \
    "$(count normal samples/b1.csv "$work/place-chessboard")"
row "report of 1,000 tracts of one square each, $(bytes tracts) bytes" \
    "$(count report samples/b1.csv "$work/tracts")"
row 'report of half of them' "$(count report samples/b1.csv "$work/half-of-tracts")"
row "report of 1,000 tracts of one place each, $(bytes place-tracts) bytes" \
    "$(count report samples/b1.csv "$work/place-tracts")"
row "report of 1,000 tracts of six squares each, in words, $(bytes words) bytes" \
    "$(count report samples/b1.csv "$work/words")"
row 'report of 1,000 tracts with names of 64 bytes' "$(count report samples/b1.csv "$work/long-names")"
row 'report of 1,000 tracts with names that collide in a hashed set' \
    "$(count report samples/b1.csv "$work/colliding")"
row 'report of the sample' "$(count report samples/b1.csv samples/tracts.csv)"
row 'help' "$(count --help)"
# Refused input: an edit of the samples, or a short text.
echo
heading 'refused' ''
refused_land() {
    printf '%s' "$2" > "$work/text"
    row "$1" "$(count acres samples/b0.csv "$work/text")"
}
refused_notes() {
    sed "$2" samples/b0.csv > "$work/notes"
    row "$1" "$(count plat "$work/notes")"
}
refused_list() {
    printf 'name,description\nA,"sec. 7, lot 1."\nB,"%s"\n' "$2" > "$work/list"
    row "$1" "$(count report samples/b1.csv "$work/list")"
}
refused_notes 'refused 3, a heading' '1s/line/Line/'
refused_notes 'refused 9, a length' '3s/80.00/80.0000/'
refused_notes 'refused 11, a missing line' '/^W,6,7,/d'
refused_notes 'refused 21, a half mile' '/^W,8,17,/s/40.00/40.251/'
refused_land 'refused 42, a byte' 'sec. 14, NE/4.'
refused_land 'refused 44, a text that ends too soon' 'sec. 14,'
refused_land 'refused 67, an overlap' 'sec. 14, NE1/4 and N1/2.'
refused_list 'refused 83, a description' 'sec. 14, NE1/4 and N1/2.'
refused_list 'refused 84, land of two tracts' 'sec. 7, lots 1 and 4.'
# The last of 1,000 tracts names the land of the first one again.
sed '$s/"sec.*/"sec. 8, NE1\/4NE1\/4NE1\/4NE1\/4."/' "$work/tracts" > "$work/last"
row 'refused 84, the last of 1,000 tracts' "$(count report samples/b1.csv "$work/last")"
# The longest joined input of places, of which the last overlaps.
(sed '$s/\.$/, NE1\/4./' "$work/parts"; cat samples/b1.csv) > "$work/overlap"
row 'refused 67, the last of 2,816 squares, on standard input' "$(count < "$work/overlap")"
# 65,536 bytes: $1, then $2 repeated, then spaces to fill.
text() {
    awk -v front="$1" -v again="$2" 'BEGIN {
        text = front
        while (length(text) + length(again) <= 65536) text = text again
        printf "%-65536s", text
    }'
}
nothing=$(count acres samples/b1.csv "$work/empty")
# One row for `acres` on such a text, less `acres` on an empty one; and the difference per byte.
byte_row() {
    text "$2" "$3" > "$work/text"
    more=$(($(count acres samples/b1.csv "$work/text") - nothing))
    row "$1" "$more" "$(awk -v more="$more" 'BEGIN { printf "%.1f", more / 65536 }')" $((more + nothing))
}
echo
heading '65,536 bytes, less those of an empty text' each
byte_row 'lots 1,1,1' 'sec. 1, lots 1' ',1'
byte_row 'lots 1, 1, 1' 'sec. 1, lots 1' ', 1'
byte_row 'lots 10,10' 'sec. 1, lots 10' ',10'
byte_row 'lots 1,2,3,4 of section after section' 'sec. 1' ', lots 1,2,3,4; sec. 1'
byte_row 'lots 1 and 1 and 1' 'sec. 1, lots 1' ' and 1'
byte_row 'lots 1, and 1, and 1' 'sec. 1, lots 1' ', and 1'
byte_row 'lots 1 to 1, 1 to 1' 'sec. 1, lots 1' ' to 1, 1'
byte_row 'lots 1 THRU 1, 1 THRU 1' 'sec. 1, lots 1' ' THRU 1, 1'
byte_row 'lots 1 and 1, ending in a comma' 'sec. 1, lots 1' ' and 1,'
byte_row 'secs. 1,1,1' 'secs. 1' ',1'
byte_row 'secs. 1 and 1 and 1' 'secs. 1' ' and 1'
byte_row 'secs. 1, 1' 'secs. 1' ', 1'
byte_row 'tabs' '' '\t'
byte_row 'spaces and tabs in turn' '' ' \t'
byte_row 'line feeds' '' '\n'
byte_row 'carriage returns' '' '\r'
byte_row 'CRLF' '' '\r\n'
byte_row 'indented empty lines' '' '\n    '
byte_row 'no white space: form feeds' '' '\f'
spaces 1048576 ',' > "$work/commas"
nothing=$(count report samples/b1.csv "$work/empty")
more=$(($(count report samples/b1.csv "$work/commas") - nothing))
row 'report of 1,048,576 commas' "$more" "$(awk -v more="$more" 'BEGIN { printf "%.1f", more / 1048576 }')" \
    $((more + nothing))
missing=$(($(cat bench/expected bench/unexplained | grep -c '^[0-9]') - found))
[ "$missing" = 0 ] || echo "$missing counts of bench/expected and bench/unexplained have no row here"
[ "$too_much" = 0 ] || echo "$too_much counts are more than 1.02 times those of bench/expected"
[ "$too_many_times" = 0 ] || echo "$too_many_times counts are more times those of bench/unexplained than they may be"
[ "$missing" = 0 ] && [ "$too_much" = 0 ] && [ "$too_many_times" = 0 ]
