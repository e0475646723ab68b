#!/bin/sh
# Refuses ./township, or the program that is named, one growth of its memory after another, in each of its
# five ways of running; and likewise calls that read and write, which twp_trials, or the program that is named
# second, makes separately. A run with a refused growth ends there, as out of memory: it has written nothing, and
# a call leaves a vector unchanged. Only explaining a refusal is optional: if memory is refused for the copy of
# the program's input, or for the explanation, the answer and the status are the same, and the explanation is
# complete or omitted. The first run in which there is nothing to refuse gives the right answer. The last line
# is 'N passed, 0 failed'.
. "$(dirname "$0")/../lib.sh"
test_program "$@"
. "$root/tests/program/inputs.sh"

compiler=${CC:-cc}
if ! command -v "$compiler" > lost; then
    skip "refused growths, since there is no C compiler here ($compiler)"
    ended
fi
"$compiler" -O1 -shared -fPIC -o refuse_growth.so "$root/tests/program/refuse_growth.c" || exit 1

accepted_input
refused_input
# A township whose lines are all 40 and 80 chains.
cp "$root/samples/b0.csv" even.csv
input=/dev/null

# How a run must end that was refused memory: the program, and a call, whose output must be `wanted_refused`.
program_is_refused() { [ "$status" = 3 ] && [ ! -s out ] && is_line err 'township: out of memory'; }
call_is_refused() { [ "$status" = 0 ] && [ ! -s err ] && cmp -s wanted_refused out; }

# How a run must end that was not: in the lines that are compared, its output is `wanted`, and so is its status.
# Its explanation is `wanted_err`, which is empty if the input is accepted.
is_answer() { [ "$status" = "$wanted_status" ] && sed -n "$lines" out | cmp -s wanted -; }
is_answered() { is_answer && cmp -s wanted_err err; }

# How a run must end that did without some memory: the same, but the explanation may be omitted.
is_answered_without() { is_answer && { [ ! -s err ] || cmp -s wanted_err err; }; }

# Shows the last run, which failed.
fail_run() { fail "$what: growth $growth refused: status $status" out err; }

# Starts counting the growths that a call or a run is refused, and prints the count of the previous one: how
# many there were, and how many the program did without.
of=
new_count() {
    [ -z "$of" ] || echo "$of: $refused growths refused$done_without"
    of=$1 refused=0 done_without=
}

# Runs a program with one growth refused after another, counting from the given number of writes on. A refused
# growth is the last one of its run, unless the program does without it, as it does for the given number of them.
refuse_in_turn() {
    what=$1 is_refused=$2 writes=$3 spared=$4
    shift 4
    [ "$what" = "$of" ] || new_count "$what"
    growth=0
    without=0
    while
        growth=$((growth + 1))
        LD_PRELOAD="$work/refuse_growth.so" REFUSED_GROWTH=$growth AFTER_WRITES=$writes \
            "$@" < "$input" > out 2> err 9> told
        status=$?
        [ -s told ]
    do
        if is_line told refused && "$is_refused"; then
            pass
        elif [ "$spared" != 0 ] && [ "$(sed q told)" = refused ] && is_answered_without; then
            without=$((without + 1))
            pass
        else
            fail_run
            return
        fi
    done
    # Only a run that takes no memory may have nothing to refuse. After the answer, it can do without all.
    [ "$spared" != all ] || spared=$((growth - 1))
    if [ "$growth" -gt "$least" ] && [ "$without" = "$spared" ] && is_answered; then pass; else fail_run; fi
    refused=$((refused + growth - 1))
    [ "$without" = 0 ] || done_without=", $without of them done without"
}

# A run of the program that accepts its input, the number of growths for copies of its input, its answer, and
# the words.
refuse_program() {
    what=$1 copies=$2
    printf '%s\n' "$3" > wanted
    : > wanted_err
    wanted_status=0
    shift 3
    refuse_in_turn "township: $what" program_is_refused 0 "$copies" "$program" "$@"
}

# The same for a run that refuses its input, first up to its answer, and then after it. The explanation must be
# the one that the program gives when no memory is refused.
refuse_refusal() {
    refusal=$1 copies=$2
    printf '%s\n' "$3" > wanted
    wanted_status=1
    shift 3
    "$program" "$@" < "$input" > lost 2> wanted_err
    refuse_in_turn "township, refused: $refusal" program_is_refused 0 "$copies" "$program" "$@"
    refuse_in_turn "township, explained: $refusal" program_is_refused 1 all "$program" "$@"
}

# A call, its output if memory is refused and if none is, and the words that name it.
refuse_call() {
    what=$1
    printf 'calling\nout of memory\n%s' "$2" > wanted_refused
    printf 'calling\n%s' "$3" > wanted
    : > wanted_err
    wanted_status=0
    shift 3
    refuse_in_turn "$what" call_is_refused 1 0 "$calls" "$@"
}

lines=p
least=1

# A vector is first filled as far as it has room, so the growth may come at any byte.
for room in 0 1 2 3 4; do
    refuse_call 'Length::write' 'held: ' 'answered
held: 80.00' write-length 80 $room
    refuse_call 'Length::write' 'held: ' 'answered
held: 19.575' write-length 19.575 $room
    refuse_call 'Length::write' 'held: ' 'answered
held: 0.005' write-length 0.005 $room
done
for room in 0 1 2 3; do
    refuse_call 'write_acres' 'held: ' 'answered
held: 39.05' write-acres 3905 $room
    refuse_call 'write_acres' 'held: ' 'answered
held: 0.05' write-acres 5 $room
done
notes=$(cat n.csv)
refuse_call 'Notes::write' 'held: ' "answered
held: $notes
" write-notes n.csv 0
refuse_call 'Notes::read' '' "answered
$notes
" read-notes n.csv
refuse_call 'Description::read' '' 'answered
2
' read-description d.txt
# A chain of twelve steps, ten of which have room in its item, each a half of a half: the sixth makes it too small.
printf 'sec. 14, N1/2N1/2N1/2N1/2N1/2N1/2N1/2N1/2N1/2N1/2N1/2N1/2.' > chain
refuse_call 'Description::read' '' 'answered
2
' read-description chain

# The explanation of a lot table names the first record for the lot of another one.
printf 'section,lot,acres\nT,2,N,3,W\n5,1,40.45\n5,1,40.55\n' > lots.csv
refuse_call 'explain_lots' '' 'refused 93 at 4
township: lots.csv:4: duplicate record: section 5, lot 1
  4 | 5,1,40.55
    | ^^^
  record 3 at line 3 is also for this lot
' explain-lots lots.csv

refuse_call 'spell' '' "answered
$canonical
" spell parts
# The northern row of places is written as the north halves of sixteen squares of four places, and these as their
# quarters, from the east.
printf 'sec. 14, N1/2N1/2N1/2N1/2N1/2.' > row
parts_of_row=$(awk 'BEGIN {
    split("NE1/4 NW1/4", corner, " ")
    for (a = 1; a <= 2; a++) for (b = 1; b <= 2; b++) for (c = 1; c <= 2; c++) for (d = 1; d <= 2; d++)
        printf "%sN1/2%s%s%s%s", (a + b + c + d > 4 ? ", " : ""), corner[d], corner[c], corner[b], corner[a]
}')
refuse_call 'spell' '' "answered
T. 2 N., R. 3 W.,
sec. 14, $parts_of_row.
" spell row
printf 'sec. 7, lots 1 to 4, inclusive.' > lots
# The lines of sections 6, 7, and 8 in the plat, its last line, and the number of its lines, 37.
plat='sec. 6: lot 1 40.90, lot 2 41.10, lot 3 41.31, lot 4 39.95, lot 5 38.70, lot 6 38.90, lot 7 39.10, total 639.97
sec. 7: lot 1 39.18, lot 2 39.13, lot 3 39.08, lot 4 39.03, total 636.40
sec. 8: total 640.00
township total 23037.57'
lines='6,8p;37p;$='
refuse_program 'plat' 1 "$plat
37" plat n.csv
lines=p
refuse_program 'acres' 2 '40.45 acres' acres n.csv d.txt
refuse_program 'acres by the plat' 2 '156.42 acres' acres --account plat n.csv lots
refuse_program 'normal' 2 "$canonical" normal n.csv parts
refuse_program 'normal of lots' 2 'T. 2 N., R. 3 W.,
sec. 7, lots 1, 2, 3, 4.' normal n.csv lots
refuse_program 'report' 2 "$account" report n.csv t.csv
# Twenty tracts, a section each of 640 acres: 12,800 of 23,040.
awk 'BEGIN { print "name,description"; for (n = 1; n <= 20; n++) printf "%s,sec. %s.\n", n, n }' > twenty
refuse_program 'report of twenty tracts' 2 "$(awk 'BEGIN { for (n = 1; n <= 20; n++) printf "tract %s: 640.00 acres\n", n }')
total: 12800.00 acres
remaining: 10240.00 acres" report even.csv twenty
# A copy begins with room for 131,072 bytes, and grows for more.
(cat t.csv; head -c 200000 /dev/zero | tr '\0' '\n') > long.csv
refuse_program 'report of a long list' 3 "$account" report n.csv long.csv
input=joined
refuse_program 'joined input' 1 '40.45 acres'

# Refused input: notes, a plat, descriptions, lists, and joined input.
input=/dev/null
sed '/^W,6,7,/s/80.00/85.01/' even.csv > long-line.csv
printf 'sec. 14,' > short
refuse_refusal 'missing notes' 1 'refused 11 at 53' plat lacking.csv
refuse_refusal 'a long line' 2 'refused 23 at 53' acres long-line.csv d.txt
refuse_refusal 'a short text' 2 'refused 44 at 8' normal n.csv short
refuse_refusal 'an overlap' 2 'refused 67 at 19' acres n.csv overlap
refuse_refusal 'a long chain' 2 'refused 65 at 9' acres n.csv chain
refuse_refusal 'a refused tract' 2 'refused 83 at 2
refused 67 at 19' report n.csv refused-tract.csv
refuse_refusal 'land of two tracts' 2 'refused 84 at 3' report n.csv shared-land.csv
printf 'sec. 14, NE1/4 and N1/2.\n' | cat - n.csv > joined
input=joined
refuse_refusal 'joined input' 1 'refused 67 at 19'
new_count ''

ended
