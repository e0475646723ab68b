#!/bin/sh
# Runs ./township, or the program that is named, with little stack and with little memory, in each of its five
# ways of running, on input that it accepts and on input that it refuses. With little stack, it must give the right
# answer, and explain a refusal. From the least memory in which the system can start it up to enough, in steps of a
# page, it must give that answer or end as out of memory; if there is too little for the explanation, it omits that.
# The last line is 'N passed, 0 failed'.
#
# The environment is on the stack too: `env -i PATH="$PATH" sh tests/program/limits.sh` tests the program without one.
. "$(dirname "$0")/../lib.sh"
test_program "$@"
. "$root/tests/program/inputs.sh"
# In KiB.
page=4
stack=96

accepted_input
refused_input
input=/dev/null
lines=p

# How a run must end that has enough memory, in the lines that are compared; how one that does not; and how one
# that has enough for its answer, but not for the explanation.
is_answer() { [ "$status" = "$wanted_status" ] && sed -n "$lines" out | cmp -s wanted -; }
is_answered() { is_answer && cmp -s wanted_err err; }
is_refused() { [ "$status" = 3 ] && [ ! -s out ] && is_line err 'township: out of memory'; }
is_unexplained() { is_answer && [ ! -s err ]; }

# Shows the last run, which failed.
fail_run() { fail "$1: status $status" out err; }

# The least memory in which the program starts: the loader maps it and its libraries, binds their
# names, and makes the first thread's storage. When traced, the loader then lists the libraries and runs nothing.
starts_in() { (ulimit -v "$1" && LD_TRACE_LOADED_OBJECTS=1 LD_BIND_NOW=1 exec "$program") > out 2> err; }
least=1000
{
    until starts_in "$least" || [ "$least" -gt 100000 ]; do least=$((least + 32 * page)); done
    while starts_in $((least - page)); do least=$((least - page)); done
} 2> lost

# Runs the program in each amount of memory from the least to the first that is enough and a few more.
more_and_more() {
    memory=$least
    enough=0
    refused=0
    while [ "$enough" -lt 8 ] && [ "$memory" -lt $((least + 20000)) ]; do
        (ulimit -v "$memory" && exec "$program" "$@") < "$input" > out 2> err
        status=$?
        if is_answered; then
            enough=$((enough + 1))
            pass
        elif is_refused; then
            enough=0
            refused=$((refused + 1))
            pass
        elif is_unexplained; then
            enough=0
            pass
        else
            fail_run "$what in $memory KiB of memory"
        fi
        memory=$((memory + page))
    done 2> lost
    # Some amounts must start the program and be too little for it, and some must be enough.
    if [ "$enough" = 8 ] && [ "$refused" -gt 0 ]; then pass; else fail_run "$what in more and more memory"; fi
}

# A way of running, its answer, and the words.
limit() {
    : > wanted_err
    limit_of 0 "$@"
}

# The same for input that is refused. The explanation must be the one that is given with plenty of stack.
limit_refused() {
    what=$1 answer=$2
    shift 2
    "$program" "$@" < "$input" > out 2> wanted_err
    limit_of 1 "$what, refused" "$answer" "$@"
}

limit_of() {
    wanted_status=$1 what=$2
    printf '%s\n' "$3" > wanted
    shift 3
    {
        (ulimit -s "$stack" && exec "$program" "$@") < "$input" > out 2> err
        status=$?
    } 2> lost
    if is_answered; then pass; else fail_run "$what on $stack KiB of stack"; fi
    more_and_more "$@"
}

limit 'acres' '40.45 acres' acres n.csv d.txt
limit 'normal' "$canonical" normal n.csv parts
limit 'report' "$account" report n.csv t.csv
# The last of the plat's 37 lines, and their number.
lines='37p;$='
limit 'plat' 'township total 23037.57
37' plat n.csv
lines=p
limit_refused 'plat' 'refused 11 at 53' plat lacking.csv
limit_refused 'acres' 'refused 67 at 19' acres n.csv overlap
limit_refused 'normal' 'refused 67 at 19' normal n.csv overlap
limit_refused 'report' 'refused 83 at 2
refused 67 at 19' report n.csv refused-tract.csv
limit_refused 'report of land of two tracts' 'refused 84 at 3' report n.csv shared-land.csv
input=joined
limit 'joined input' '40.45 acres'
printf 'sec. 14, NE1/4 and N1/2.\n' | cat - n.csv > joined
limit_refused 'joined input' 'refused 67 at 19'

ended
