#!/bin/sh
# Runs ./township, or the program that is named, where a row can't say how: on devices, on pipes whose writer is slow or
# endless, with closed streams, with output that can't be written, and on files that are opened in turn. Compares the
# status, standard output, and standard error. The last line is 'N passed, 0 failed'.
. "$(dirname "$0")/../lib.sh"
test_program "$@"
. "$root/tests/program/inputs.sh"

# Compares the last run: what it tests, its status, and its standard output and standard error, each
# without its last line feed.
ends() {
    text "$4" > wanted_out
    text "$5" > wanted_err
    if [ "$2" = "$3" ] && cmp -s wanted_out out && cmp -s wanted_err err; then
        pass
    else
        fail "$1: status $2 for $3" out err
    fi
}

# The same for a run that refused its input: on standard error it explains the refusal, in lines of which the
# first begins with the program's name. The rows test the explanations themselves.
refuses() {
    text "$3" > wanted_out
    if [ "$2" = 1 ] && cmp -s wanted_out out && sed 1q err | grep -q '^township: .*: .' &&
        [ -z "$(tail -c 1 err)" ]; then
        pass
    else
        fail "$1: status $2 for 1" out err
    fi
}

# A text as a program writes it: nothing, or ended by a line feed.
text() { [ -z "$1" ] || printf '%s\n' "$1"; }

# Runs the program with these words, and keeps its output.
run() { "$program" "$@" > out 2> err; }

accepted_input
: > empty
mkdir folder

# Paths, devices, and another name of the program.
run acres ./n.csv "$work/d.txt"; ends 'names with slashes' $? 0 '40.45 acres' ''
run acres n.csv d.txt <&-; ends 'standard input is not wanted' $? 0 '40.45 acres' ''
run acres /dev/zero d.txt; refuses 'endless notes' $? 'refused 1 at 65536'
run report n.csv /dev/zero; refuses 'an endless list' $? 'refused 80 at 1048576'
run < /dev/zero; refuses 'endless input' $? 'refused 2 at 1'
sed '/^W,6,7,/s/80.00/85.01/' "$root/samples/b0.csv" > edited
run plat /dev/stdin < edited; refuses 'the plat of a device' $? 'refused 23 at 53'
cp "$program" other-name
"$program" --help > help
./other-name --help > out 2> err; ends 'called by another name' $? 0 "$(cat help)" ''

# Pipes.
cat n.csv | run report /dev/stdin t.csv; ends 'a report of notes on a pipe' $? 0 "$account" ''
(sed 1q t.csv; sleep 1; sed 1d t.csv) | run report n.csv /dev/stdin
ends 'tracts on a slow pipe' $? 0 "$account" ''
(cat d.txt; echo; sleep 1; cat n.csv) | run; ends 'a slow pipe' $? 0 '40.45 acres' ''

# Standard input that cannot be read.
run < folder; ends 'a folder on standard input' $? 3 '' 'township: cannot read'
run <&-; ends 'closed standard input' $? 3 '' 'township: cannot read'

# Output that cannot be written: a full device, closed standard output, and a pipe without a reader.
broken='township: cannot write'
: > out
"$program" acres n.csv d.txt > /dev/full 2> err; ends 'acres, full' $? 3 '' "$broken"
"$program" acres empty d.txt > /dev/full 2> err; ends 'a refusal, full' $? 3 '' "$broken"
"$program" plat n.csv > /dev/full 2> err; ends 'plat, full' $? 3 '' "$broken"
"$program" report n.csv t.csv > /dev/full 2> err; ends 'report, full' $? 3 '' "$broken"
"$program" report n.csv empty > /dev/full 2> err; ends 'a refused list, full' $? 3 '' "$broken"
"$program" < joined > /dev/full 2> err; ends 'joined, full' $? 3 '' "$broken"
"$program" --help > /dev/full 2> err; ends 'help, full' $? 3 '' "$broken"
"$program" acres n.csv d.txt >&- 2> err; ends 'acres, closed' $? 3 '' "$broken"
"$program" plat n.csv >&- 2> err; ends 'plat, closed' $? 3 '' "$broken"
"$program" report n.csv t.csv >&- 2> err; ends 'report, closed' $? 3 '' "$broken"
"$program" normal n.csv parts > /dev/full 2> err; ends 'normal, full' $? 3 '' "$broken"
"$program" normal n.csv parts >&- 2> err; ends 'normal, closed' $? 3 '' "$broken"
"$program" < joined >&- 2> err; ends 'joined, closed' $? 3 '' "$broken"
"$program" --help >&- 2> err; ends 'help, closed' $? 3 '' "$broken"
"$program" acres n.csv d.txt <&- >&- 2> err; ends 'both closed' $? 3 '' "$broken"
mkfifo pipe
# Its reader exits before the run begins.
unread() { (exec 3<> pipe 4> pipe 3>&-; exec "$program" "$@" >&4 2> err); }
unread acres n.csv d.txt; ends 'acres, no reader' $? 3 '' "$broken"
unread plat n.csv; ends 'plat, no reader' $? 3 '' "$broken"
unread report n.csv t.csv; ends 'report, no reader' $? 3 '' "$broken"
unread normal n.csv parts; ends 'normal, no reader' $? 3 '' "$broken"
unread < joined; ends 'joined, no reader' $? 3 '' "$broken"
unread help; ends 'help, no reader' $? 3 '' "$broken"

# Standard error may be lost; the status must not be.
: > err
"$program" acres missing gone > out 2>&-; ends 'closed standard error' $? 3 '' ''
"$program" acres missing gone > out 2> /dev/full; ends 'full standard error' $? 3 '' ''
"$program" akres > out 2>&-; ends 'usage, closed standard error' $? 2 '' ''

# Each file is opened in turn, and once: the program can open a pipe only while the other side has it open, and
# that opens the notes first, and removes the names as soon as both are open. Besides the three standard
# streams, the program may have only these two files open.
in_turn() {
    subcommand=$1 second=$2
    rm -f first second
    mkfifo first second
    timeout 10 sh -c 'exec 3> first 4> second; rm first second; cat n.csv >&3; exec 3>&-; cat "$1" >&4' \
        sh "$second" 2> lost &
    (ulimit -n 5 && exec timeout 10 "$program" "$subcommand" first second) \
        > out 2> err < /dev/null 3<&- 4<&-
}
in_turn acres d.txt; ends 'acres opens its files in their turn' $? 0 '40.45 acres' ''
in_turn normal parts; ends 'normal opens its files in their turn' $? 0 "$canonical" ''
in_turn report t.csv; ends 'report opens its files in their turn' $? 0 "$account" ''

ended
