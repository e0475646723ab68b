#!/bin/sh
# Runs ./township, or the program that is named, on the largest input that is allowed, and on input that is one byte
# or one tract larger: field notes, descriptions, canonical texts, lists of tracts, names of tracts; and on input of
# many lengths, none of which may run out of memory. Compares the answer and the status of each run, and how far it
# reads. The last line is 'N passed, 0 failed'.
. "$(dirname "$0")/../lib.sh"
test_program "$@"
even=$root/samples/b0.csv

# Runs the program with these words; it must end with this status, and its answer must be that in the file `wanted`.
ends() {
    what=$1 wanted_status=$2
    shift 2
    "$program" "$@" > out 2> err
    status=$?
    if [ "$status" = "$wanted_status" ] && cmp -s wanted out; then
        pass
        return
    fi
    tail -c 1000 wanted > the_end_of_wanted
    tail -c 1000 out > the_end_of_out
    fail "$what: status $status for $wanted_status" the_end_of_wanted the_end_of_out
}
# The same for an answer, and for a refusal, to the even township's notes and the file `input`, or another file.
is_answered() { printf '%b\n' "$2" > wanted; ends "$1" 0 "$3" "$even" "${4:-input}"; }
is_refused() { printf '%b\n' "$2" > wanted; ends "$1" 1 "$3" "$even" "${4:-input}"; }

# The part with the given number, from 0, of those that quartering a section the given number of times makes: five
# times makes 1,024 places of five eighths of an acre, and four times 256 squares of 2.5 acres.
parts='
    function part(number, times,   text) {
        for (; times > 0; times--) text = text corner[int(number / 4 ^ (times - 1)) % 4 + 1]
        return text
    }
    BEGIN { split("NE1/4 NW1/4 SW1/4 SE1/4", corner, " ") }'

# A list of the given number of tracts, each a different part of the sections from 8 on, and the tracts in its
# account, each with the given number of acres.
tracts() {
    awk -v count="$1" -v times="$2" "$parts"'
        BEGIN {
            print "name,description"
            for (n = 0; n < count; n++)
                printf "%s,\"sec. %s, %s.\"\n", n, 8 + int(n / 4 ^ times), part(n % 4 ^ times, times)
        }'
}
account_of() {
    awk -v count="$1" -v acres="$2" 'BEGIN { for (n = 0; n < count; n++) print "tract " n ": " acres " acres" }'
}
# 991 places have 619.375 of 23,040 acres, a tie, and the remaining area is a tie too.
for row in '990 5 0.63 618.75 22421.25' '991 5 0.63 619.38 22420.63' '992 5 0.63 620.00 22420.00' \
    '999 5 0.63 624.38 22415.63' '1000 5 0.63 625.00 22415.00' '1000 4 2.50 2500.00 20540.00'; do
    read -r count times acres total remaining << END
$row
END
    tracts "$count" "$times" > input
    (account_of "$count" "$acres"; printf 'total: %s acres\nremaining: %s acres\n' "$total" "$remaining") > wanted
    ends "$count tracts" 0 report "$even" input
done
# One more is refused, whatever it is: another place, a tract without a name, or no tract at all.
tracts 1001 5 > input
is_refused '1,001 tracts' 'refused 85 at 1002' report
(tracts 1000 5; echo ',sec. 12.') > input
is_refused 'a nameless one more' 'refused 85 at 1002' report
(tracts 1000 5; echo 'too,many,fields') > input
is_refused 'one more record' 'refused 85 at 1002' report

# Names of 1 to 64 bytes, none of them a control character or beyond ASCII.
account='tract %s: 640.00 acres\ntotal: 640.00 acres\nremaining: 22400.00 acres'
for name in ' ' "$(many 64 '~')"; do
    printf 'name,description\n%s,sec. 14.\n' "$name" > input
    is_answered "a name of ${#name} bytes" "$(printf "$account" "$name")" report
done
for name in '' "$(many 65 '~')" 'A\177' 'A\037' '\303\251'; do
    printf 'name,description\n%b,sec. 14.\n' "$name" > input
    is_refused "the name $name" 'refused 81 at 2' report
done

# A tract's description is at most 65,536 bytes long, and a list 1,048,576; empty lines are not records.
(printf 'name,description\nA,sec. 14.'; many $((65536 - 8)) ' ') > input
is_answered 'the longest description' "$(printf "$account" A)" report
(printf 'name,description\nA,sec. 14.'; many $((65537 - 8)) ' ') > input
is_refused 'a longer description' 'refused 83 at 2\nrefused 41 at 65536' report
(printf 'name,description\n'; many $((1048576 - 17)) '\n') > input
is_answered 'the longest list' 'total: 0.00 acres\nremaining: 23040.00 acres' report
(printf 'name,description\n'; many $((1048577 - 17)) '\n') > input
is_refused 'a longer list' 'refused 80 at 1048576' report
# The explanation shows line 200,002 of a list that is longer than the room reserved for the program's copy of it.
(printf 'name,description\n'; many 200000 '\n'; echo 'A,sec. 37.') > input
is_refused 'a tract behind empty lines' 'refused 83 at 2\nrefused 62 at 5' report
if grep -q '^township: input:200002:' err; then pass; else fail 'the line of that tract' err; fi

# Field notes are at most 65,536 bytes long. The even ones have 1,638 bytes, and empty lines are not records.
printf 'sec. 14.' > land
mkdir folder
echo '640.00 acres' > wanted
for length in $(seq 60000 41 65536) 65536; do
    (cat "$even"; many $((length - 1638)) '\n') > notes
    ends "notes of $length bytes" 0 acres notes land
done
# Whatever the bytes are, too many are refused first; and no second file is read: this one cannot be.
(cat "$even"; many $((65537 - 1638)) '\n') > more
many 65536 x > letters
many 65537 x > more_letters
for subcommand in acres normal report plat; do
    set -- folder
    [ $subcommand != plat ] || set --
    echo 'refused 1 at 65536' > wanted
    ends "$subcommand: longer notes" 1 $subcommand more "$@"
    ends "$subcommand: more letters" 1 $subcommand more_letters "$@"
    echo 'refused 3 at 1' > wanted
    ends "$subcommand: letters" 1 $subcommand letters "$@"
done

# A description is at most 65,536 bytes long, and too many bytes are refused before a byte that is not allowed in it.
for subcommand in acres normal; do
    many 65536 ' ' > input
    is_refused "$subcommand: white space" 'refused 44 at 65536' $subcommand
    many 65536 '\377' > input
    is_refused "$subcommand: bad bytes" 'refused 42 at 0' $subcommand
    for byte in ' ' '\377'; do
        many 65537 "$byte" > input
        is_refused "$subcommand: a longer text" 'refused 41 at 65536' $subcommand
    done
done

# How far a run reads: one byte past a limit, and no second file if the notes make no plat. The bytes left in a pipe
# are counted after the run. Joined input without a line feed is read to 65,536 + 65,538 bytes.
leaves() {
    what=$1 left=$2 count=$3 byte=$4
    shift 4
    many "$count" "$byte" | { "$program" "$@" > out 2> err; wc -c; } > counted
    if [ "$(cat counted)" = "$left" ]; then pass; else fail "$what: $(cat counted) bytes are left, and not $left"; fi
}
leaves 'notes' $((200000 - 65537)) 200000 x plat /dev/stdin
leaves 'a description' $((200000 - 65537)) 200000 ' ' acres "$even" /dev/stdin
leaves 'a description to be spelled' $((200000 - 65537)) 200000 ' ' normal "$even" /dev/stdin
leaves 'a list' $((1200000 - 1048577)) 1200000 x report "$even" /dev/stdin
leaves 'joined input' $((200000 - 131074)) 200000 ' '
leaves 'a description without a plat' 200000 200000 ' ' acres letters /dev/stdin
leaves 'a list without a plat' 200000 200000 ' ' report letters /dev/stdin

# Each length near the limit, and powers of two and their neighbors: a section and white space, and a list that
# repeats section 1, which is read whole before its second number, at 6, or after a space at 7, is refused.
(printf 'sec. 14'; many 65536 ' ') > blank
(printf 'sec 1'; yes ,1 | head -n 32768 | tr -d '\n') > odd
(printf ' '; cat odd) > spaced
powers=$(awk 'BEGIN { for (n = 8; n <= 65536; n *= 2) print n - 1, n, n == 65536 ? "" : n + 1 }')
echo '640.00 acres' > wanted
for length in $powers $(seq 65000 65536); do
    head -c "$length" blank > input
    ends "a description of $length bytes" 0 acres "$even" input
done
for length in $powers; do
    if [ $((length % 2)) = 1 ]; then list=odd at=6; else list=spaced at=7; fi
    head -c "$length" $list > input
    is_refused "a list of $length bytes" "refused 67 at $at" acres
done

# A description that names each place of two sections, 2 times 1,024 of five eighths of an acre, and has white
# space up to the limit of 65,536 bytes; and one that names the first place of section 9 for its last one too.
each_place() {
    awk -v last="$1" "$parts"'
        BEGIN {
            for (s = 8; s <= 9; s++) {
                text = text (s == 8 ? "" : "; ") "sec. " s
                for (n = 0; n < 1024; n++) {
                    text = text ", "
                    at = length(text)
                    text = text part(s == 9 && n == 1023 ? last : n, 5)
                }
            }
            printf "%s%*s", text, 65536 - length(text), ""
            print at > "at"
        }'
}
each_place 1023 > input
is_answered 'each place of two sections' '1280.00 acres' acres
each_place 0 > twice
is_refused 'one of them again' "refused 67 at $(cat at)" acres twice

# The canonical text of a checkerboard on these sections, which contains the dark squares of this depth: of each four,
# the northwest and the southeast one, so that no half is full. The largest quarter comes last.
chessboard() {
    awk -v sections="$1" -v depth="$2" '
        BEGIN {
            count = split(sections, section, " ")
            split("NE NW SW SE", quarter, " ")
            printf "T. 2 N., R. 3 W.,"
            for (i = 1; i <= count; i++) {
                printf "%s\nsec. %s", i == 1 ? "" : ";", section[i]
                for (four = 0; four < 4 ^ (depth - 1); four++)
                    for (dark = 2; dark <= 4; dark += 2) {
                        printf ", %s1/4", quarter[dark]
                        for (n = 1; n < depth; n++)
                            printf "%s1/4", quarter[int(four / 4 ^ (n - 1)) % 4 + 1]
                    }
            }
            print "."
        }'
}
# A section has 128 dark squares of 20 bytes, with 127 times 2 between them, and with `sec. 14, ` and the end of
# its line 2,825 bytes, or 2,824 with a number of one digit; the heading has 18. Of places it has 512 of 25 bytes,
# and 13,833 or 13,832 with the text between and around them. A text of more than 65,536 bytes is not a description.
regular='8 9 10 11 12 13 14 15 16 17 20 21 22 23 24 25 26 27 28 29 32 33 34'
for row in "64991:4:$regular" "70641:4:$regular 35 36" '55348:5:8 9 10 11' '69181:5:8 9 10 11 12'; do
    size=${row%%:*} rest=${row#*:}
    chessboard "${rest#*:}" "${rest%%:*}" > wanted
    sed 's/1\/4/¼/g; s/ //g' wanted > short
    ends "a chessboard of $size bytes" 0 normal "$even" short
    if [ "$(wc -c < out)" = "$size" ]; then pass; else fail "the size of that chessboard is $(wc -c < out)"; fi
    cp wanted again
    if [ "$size" -le 65536 ]; then
        ends 'its canonical text' 0 normal "$even" again
    else
        is_refused 'its canonical text, which is too long' 'refused 41 at 65536' normal again
    fi
done

ended
