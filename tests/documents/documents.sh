#!/bin/sh
# Compares the documents with ./township, or the program that is named: their commands, their examples of refusals and of
# descriptions, and the indexes that they give. All of it is read from the documents; sources.sh beside this script tests
# what needs no program. The last line is 'N passed, 0 failed'.
. "$(dirname "$0")/../lib.sh"
test_program "$@"
docs=$root/docs
even=$root/samples/b0.csv
uneven=$root/samples/b1.csv

# Runs the program with these words: `found` is its output, its status, and its standard error, except for the
# explanation of a refusal, which must be there.
run() {
    { "$program" "$@" 2> errors; echo "status $?"; } > found
    if grep -q '^status 1$' found; then
        sed -n '1!d; /^township: ./!s/^/no explanation: /p' errors >> found
        [ -s errors ] || echo 'no explanation' >> found
    else
        sed 's/^/standard error: /' errors >> found
    fi
}

# The last run: what it shows, its status, and its output.
ends() {
    printf '%s\nstatus %s\n' "$3" "$2" > wanted
    same "$1"
}

# The commands of a document, each on an indented line after a dollar sign, and what they print, on the
# indented lines below it. They are run one after another in a folder of their own. A document shows the
# explanation of a refusal, or a note, only if the command contains `2>&1`. A third word is a file that is in
# the folder as notes.csv.
commands() {
    rm -rf folder shown
    mkdir folder shown
    ln -s "$program" folder/township
    ln -s "$root/samples" folder/samples
    ln -s "$root/examples" folder/examples
    [ -z "${3:-}" ] || cp "$3" folder/notes.csv
    awk '
        /^    [$] / { n++; command = "shown/" n; output = command ".out"; printf "" > output }
        /^    [$] / { print substr($0, 7) > command; next }
        !/^    / { output = "" }
        output { print substr($0, 5) > output }
    ' "$2"
    n=0
    while [ -e "shown/$((n + 1))" ]; do
        n=$((n + 1))
        cp "shown/$n.out" wanted
        (cd folder && PATH="$work/folder:$PATH" && sh "../shown/$n") > found 2> told
        grep -q '^refused ' found || grep -q '^township: .*: note: ' told || cat told >> found
        same "$1: $(cat "shown/$n")"
    done
    all_read "the commands of $1" "$(grep -c '^    [$] ' "$2")" "$n"
}
for document in README.md docs/BATCH.md docs/DESCRIPTIONS.md docs/NOTES-FORMAT.md docs/REFUSALS.md docs/TRACTS-FORMAT.md; do
    commands "$document" "$root/$document"
done

# In the repository, the program is not on the path. The first commands of docs/BATCH.md work there nevertheless, and say
# what is missing without a program, or without the one that TOWNSHIP names.
commands docs/BATCH.md "$docs/BATCH.md"
path=$work/bin
mkdir bin
for tool in cat mktemp rm sh split xargs; do ln -s "$(command -v "$tool")" "bin/$tool"; done
cp shown/2.out wanted
(cd folder && PATH=$path && export PATH && sh ../shown/2) > found 2>&1
same 'examples/each_land.sh with ./township'
for named in '' none; do
    echo "each_land.sh: there is no program ${named:-township}" > wanted
    [ -n "$named" ] || rm folder/township
    (cd folder && PATH=$path TOWNSHIP=$named sh examples/each_land.sh samples/b1.csv list.txt) > found 2>&1
    echo "status $?" >> found
    echo 'status 3' >> wanted
    same "examples/each_land.sh without a program ${named:-township}"
done

# The examples of the man page are run like the documents' commands.
sed -n -e '/^[.]Bd/,/^[.]Ed/{ s/^[^.]/    &/; p; }' "$root/man/township.1.in" > examples
commands man/township.1 examples "$uneven"

# A list of the given number of tracts, at most 1,024, each a different smallest place of section 8.
tracts() {
    awk -v count="$1" 'BEGIN {
        split("NE1/4 NW1/4 SW1/4 SE1/4", corners, " ")
        print "name,description"
        for (n = 0; n < count; n++)
            printf "%s,\"sec. 8, %s%s%s%s%s.\"\n", n + 1, corners[int(n / 256) + 1],
                corners[int(n / 64) % 4 + 1], corners[int(n / 16) % 4 + 1], corners[int(n / 4) % 4 + 1],
                corners[n % 4 + 1]
    }'
}

# The input that an example names, with the record numbers of a sample: a description, a record in the place
# of the sample's or after its last, the sample without a record, or a given amount of something.
input_of() {
    sample=$2
    words=${1#* }
    count=$(echo "${1%% *}" | tr -d ,)
    case $1 in
        '`'*) text=${1#?} && printf %s "${text%?}" ;;
        'record '*)
            text=${words#* ?}
            awk -v number="${words%% *}" -v text="${text%?}" '
                NR == number { $0 = text }
                { print }
                END { if (NR < number) print text }
            ' "$sample" ;;
        'no record '*) sed "${words#* }d" "$sample" ;;
        *' line feeds') head -c "$count" /dev/zero | tr '\0' '\n' ;;
        *' spaces') head -c "$count" /dev/zero | tr '\0' ' ' ;;
        *' tracts') tracts "$count" ;;
        'an empty file') ;;
        *) echo "no input is made of: $1" ;;
    esac
}

# The examples of docs/REFUSALS.md, one in each row whose first cell is a number: the number; its refusal, and
# the one of a tract's description; and the input.
printf 'sec. 14.' > d.txt
grep '^| [0-9]* |' "$docs/REFUSALS.md" > rows
input='\([^|]*\)' refusal='`\(refused \1 at [0-9]*\)`' inner='\(, `\(refused [0-9]* at [0-9]*\)`\)*'
sed -n "s/^| \([0-9]*\) |.* | $input: $refusal$inner |[^|]*|\$/\1|\3|\5|\2/p" rows > examples
all_read 'the examples of docs/REFUSALS.md' "$(wc -l < rows)" "$(wc -l < examples)"
while IFS='|' read -r number first second input; do
    answer=$first
    [ -z "$second" ] || answer="$first
$second"
    if [ "$number" -lt 40 ]; then
        input_of "$input" "$even" | run acres /dev/stdin d.txt
    elif [ "$number" -lt 80 ]; then
        input_of "$input" "$even" | run acres "$even" /dev/stdin
    else
        input_of "$input" "$root/samples/tracts.csv" | run report "$uneven" /dev/stdin
    fi
    ends "$input" 1 "$answer"
done < examples

# The descriptions that it suggests in place of refused ones: in a row's last cell, any text that begins as a
# description does. They must be accepted.
sed -n 's/^| [4-6][0-9] |.*|\([^|]*\)|$/\1/p' "$docs/REFUSALS.md" |
    tr '`' '\n' | grep -E '^(secs?|T)[.] ' > offered
all_read 'what docs/REFUSALS.md offers' "$(wc -l < offered)" "$(wc -l < offered)"
while read -r description; do
    printf %s "$description" | run acres "$even" /dev/stdin
    ends "offered: $description" 0 "$(grep -x '[0-9]*[.][0-9][0-9] acres' found)"
done < offered

# The descriptions of docs/DESCRIPTIONS.md, and their acres.
grep '^| `' "$docs/DESCRIPTIONS.md" > rows
sed -n 's/^| `\([^`]*\)` |.* | \([0-9.]*\) |$/\2|\1/p' rows > examples
all_read 'the examples of docs/DESCRIPTIONS.md' "$(wc -l < rows)" "$(wc -l < examples)"
while IFS='|' read -r acres description; do
    printf %s "$description" | run acres "$even" /dev/stdin
    ends "$description" 0 "$acres acres"
done < examples

# The list of docs/TRACTS-FORMAT.md, and its account.
sed -n '/^    name,description$/,/^$/s/^    //p' "$docs/TRACTS-FORMAT.md" > list
sed -n '/^    tract /,/^$/s/^    //p' "$docs/TRACTS-FORMAT.md" > account
run report "$uneven" list
ends 'the list of docs/TRACTS-FORMAT.md' 0 "$(cat account)"

# The drawing of docs/NOTES-FORMAT.md, as the names that a record gives each section line, in both orders of
# its sections, and the line's index: a north-run line is between two sections of a row, and a west-run line is
# between two rows.
awk '
    function line(run, a, b, at) {
        if (a == "" || b == "") { print run "," a b ", " at; return }
        print run "," a "," b " " at
        print run "," b "," a " " at
    }
    /^ +[+]---/ {
        tiers++
        gsub(/[^0-9]+/, " ")
        split($0, numbers)
        for (i = 1; i <= 6; i++) west_run[tiers, i] = numbers[i]
    }
    /^ +[0-9]+ +[[]/ {
        rows++
        gsub(/[^0-9]+/, " ")
        split($0, numbers)
        for (i = 1; i <= 7; i++) north_run[rows, i] = numbers[2 * i - 1]
        for (i = 1; i <= 6; i++) section[rows, i] = numbers[2 * i]
    }
    END {
        for (row = 1; row <= 6; row++)
            for (i = 1; i <= 7; i++) line("N", section[row, i - 1], section[row, i], north_run[row, i])
        for (tier = 1; tier <= 7; tier++)
            for (i = 1; i <= 6; i++) line("W", section[tier - 1, i], section[tier, i], west_run[tier, i])
    }
' "$docs/NOTES-FORMAT.md" > drawn
# If a record of the sample is left out, its line is missing, with the index in the drawing. Line k is record k + 3.
sed 1,2d "$even" > records
number=2
while read -r record; do
    number=$((number + 1))
    index=$(sed -n "s/^${record%,*,*} //p" drawn)
    sed "${number}d" "$even" | run plat /dev/stdin
    ends "without $record" 1 "refused 11 at $index"
    echo "$number $index" >> drawn_in_order
done < records
awk 'BEGIN { for (k = 0; k < 84; k++) print k + 3, k }' > wanted
mv drawn_in_order found
same 'line k in record k + 3'

ended
