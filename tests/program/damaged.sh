#!/bin/sh
# Runs ./township, or the program that is named, on 1,000 inputs that damaged.awk makes of good ones, and checks the
# form of each run. Status 0 goes with an answer and at most a note; status 1 goes with a refusal and its
# explanation. An explanation begins with the program's name, the name of the refused file, and the line and the
# column, if the refusal has them. Whatever the input contains, the explanation is UTF-8, contains no characters that
# a terminal does not show, and ends with a line feed. The answer and the status are the same
# whether standard error goes to a file, goes nowhere, or is closed. The last line is 'N passed, 0 failed'.
#
# `sh tests/program/damaged.sh PROGRAM records` prints the program's answers as records for tests/library/c/cases.c, which
# compares them with the library's answers for the same bytes; tests/library/run.sh calls both.
. "$(dirname "$0")/../lib.sh"
test_program "$@"
count=1000
LC_ALL=C
export LC_ALL
awk -v count=$count -v even="$root/samples/b0.csv" -v uneven="$root/samples/b1.csv" \
    -f "$root/tests/program/damaged.awk" > cases
if [ "$(wc -l < cases)" != $count ]; then
    echo "FAILED: damaged.awk didn't make $count inputs" >&2
    exit 1
fi

# Runs the program on a case: its number, and how.
run() {
    case $2 in
        joined) "$program" < "$1.text" ;;
        plat) "$program" plat "$1.notes" ;;
        by-plat) "$program" acres --account plat "$1.notes" "$1.text" ;;
        *) "$program" "$2" "$1.notes" "$1.text" ;;
    esac
}

# A case and its answer as a record. In joined input, the description ends at the first line feed.
record() {
    how=$2
    case $how in
        joined)
            how=acres
            sed 1q "$1.text" | tr -d '\n' > input
            sed 1d "$1.text" > notes
            ;;
        plat)
            : > input
            cp "$1.notes" notes
            ;;
        *)
            cp "$1.text" input
            cp "$1.notes" notes
            ;;
    esac
    printf 'damaged-%d %s %d %d %d\n' "$1" "$how" "$(wc -c < notes)" "$(wc -c < input)" "$(wc -c < out)"
    cat notes input out
    echo
}

if [ "${2-}" = records ]; then
    while read -r number how; do
        run "$number" "$how" > out 2> err
        record "$number" "$how"
    done < cases
    exit
fi

# Characters that a terminal does not show, other than ASCII control characters: the rest up to the no-break space,
# the soft hyphen, spaces of odd widths, direction marks, line separators, joiners, the byte order mark, and tags.
printf '%b\n' '\0302[\0200-\0240\0255]' '\0342\0200[\0200-\0217\0250-\0257]' '\0342\0201[\0237-\0257]' \
    '\0357\0273\0277' '\0363\0240' > unseen

# Whether standard error is text that a terminal shows, in at most 8 whole lines of at most 100 characters.
is_shown() {
    iconv -f UTF-8 -t UTF-8 err > lost 2>&1 && ! grep -q '[[:cntrl:]]' err && ! grep -qaf unseen err &&
        [ -z "$(tail -c 1 err)" ] && [ "$(wc -l < err)" -le 8 ] &&
        ! LC_ALL=C.UTF-8 grep -q '.\{101\}' err
}

# The beginning of the explanation of an answer, for a case by its number and how it is run: a regular expression.
front() {
    number=${3#refused }
    number=${number%% *}
    file=$1.text
    [ "$number" -gt 23 ] || file=$1.notes
    [ "$2" != joined ] || file='standard input'
    place=':[1-9][0-9]*'
    case $number in
        1 | 2 | 11 | 41 | 80) at= ;;
        81) at="\\($place\\)\\{0,2\\}" ;;
        4[2-4] | 6[1-7] | 83) at=$place$place ;;
        *) at="$place\\($place\\)\\{0,1\\}" ;;
    esac
    echo "^township: $file$at: [^ ]"
}

# Whether the last run ended as it should: the case's number, how it was run, and its status.
is_well_formed() {
    answer=$(sed 1q out)
    case $3 in
        0)
            echo "$answer" | grep -qv '^refused' || return
            [ ! -s err ] || { sed 1q err | grep -q "^township: [^:]*:[1-9][0-9]*:[1-9][0-9]*: note: [^ ]" && is_shown; }
            ;;
        1)
            echo "$answer" | grep -qx 'refused [1-9][0-9]* at [0-9]*' || return
            sed 1q err | grep -q "$(front "$1" "$2" "$answer")" && is_shown
            ;;
        *) false ;;
    esac
}

while read -r number how; do
    run "$number" "$how" > out 2> err
    status=$?
    run "$number" "$how" > closed 2>&-
    status_closed=$?
    run "$number" "$how" > nowhere 2> /dev/null
    status_nowhere=$?
    if is_well_formed "$number" "$how" "$status" && cmp -s out closed && cmp -s out nowhere &&
        [ "$status_closed $status_nowhere" = "$status $status" ]; then
        pass
    else
        fail "damaged input $number, $how: statuses $status, $status_closed, $status_nowhere" out err
    fi
done < cases
ended
