# What the shell scripts of the tests share: their places, a folder that is removed at the end, counting, comparing, and
# running other tests. A script in a folder of tests/ begins with
#
#     . "$(dirname "$0")/../lib.sh"
#
# and, if it runs the program, with `test_program "$@"`. It ends with `ended`, whose last line is 'N passed, M failed'. A
# test whose tool is missing is skipped, by `skip`.
set -u

# The top of the repository: a folder above the script.
root=$(readlink -f "$(dirname "$0")")
until [ -f "$root/tests/lib.sh" ] || [ -z "$root" ]; do root=${root%/*}; done

passed=0
failed=0
work=$(mktemp -d)
trap 'rm -rf "$work"' EXIT
# A signal ends a shell without the above, unless it is told to exit.
trap 'exit 1' HUP INT TERM

# The programs to test: ./township, or the first word; and twp_trials of its crate, or the second word.
name_programs() {
    program=$(readlink -f "${1:-./township}")
    calls=$(readlink -f "${2:-$root/crates/twp_trials/out/twp_trials}")
}

# The same, in the script's folder. A faulty program must not fill the disk or run forever.
test_program() {
    name_programs "$@"
    ulimit -f 4000
    ulimit -t 20
    cd "$work" || exit 1
}

# Counts a test, or one that failed: what it tests, and files to show.
pass() { passed=$((passed + 1)); }
fail() {
    failed=$((failed + 1))
    echo "FAILED: $1"
    shift
    for shown; do
        echo "${shown##*/}:"
        head -c 4000 "$shown"
        echo
    done
}

# Names a test that is left out here, and why. In CI, that fails.
skip() { echo "skipped: $1"; }

# Counts the tests that a file with the output of others names as skipped. In CI, that is a failure.
count_skipped() {
    grep '^skipped: ' "$1" > "$work/skipped" || return 0
    echo "skipped, as said above: $(wc -l < "$work/skipped")"
    [ -z "${CI:-}" ] || fail 'in CI no test may be skipped; sh tools/needs.sh lists the packages to install'
}

# Ends the script with its count.
ended() {
    echo "$passed passed, $failed failed"
    [ "$failed" = 0 ]
    exit
}

# Compares the files `wanted` and `found` in the script's folder.
same() {
    if cmp -s "$work/wanted" "$work/found"; then pass; else fail "$1" "$work/wanted" "$work/found"; fi
}

# Two numbers must be the same and not 0: how many there were to read, and how many were read.
all_read() {
    echo "$2" > "$work/wanted"
    echo "$3" > "$work/found"
    [ "$2" -gt 0 ] || echo 'some' > "$work/wanted"
    same "$1"
}

# A command that must succeed.
try() {
    what=$1
    shift
    if "$@" > "$work/out" 2>&1; then pass; else fail "$what" "$work/out"; fi
}

# A command that counts its tests, of which some must pass: its last line is 'N passed', possibly with ', M failed' and
# ', M skipped (NAMES)'.
count() {
    what=$1
    shift
    "$@" > "$work/out" 2>&1
    status=$?
    last=$(tail -n 1 "$work/out")
    case $last in
        [1-9]*' passed'*) passed=$((passed + ${last%% *})) ;;
        *) status=1 ;;
    esac
    [ $status = 0 ] || fail "$what" "$work/out"
    case $last in *' skipped ('*) skip "$what: $(echo "$last" | sed 's/.* skipped (\(.*\))/\1/')" ;; esac
}

# Runs tests that are written for pytest, and counts them: a Python that has it, and words for it. What it skips is
# skipped, in the name of the folder, which is the first of these words.
pytests() {
    python=$1
    shift
    unset PYTEST_ADDOPTS
    "$python" -B -m pytest -q --no-header -p no:cacheprovider -rs "$@" > "$work/out" 2>&1
    status=$?
    # The last line is such as '2 failed, 90 passed, 1 skipped in 60.51s'.
    tail -n 1 "$work/out" | tr ',' '\n' > "$work/numbers"
    number_of() { sed -n "s/^ *\([0-9][0-9]*\) $1.*/\1/p" "$work/numbers"; }
    number=$(number_of passed)
    passed=$((passed + ${number:-0}))
    if [ "$status" != 0 ]; then
        sed -n '/^=.*= \(FAILURES\|ERRORS\) =/,$p' "$work/out" | head -c 40000
        echo
        wrong=$(number_of failed)
        number=$(number_of error)
        wrong=$((${wrong:-0} + ${number:-0}))
        [ "$wrong" != 0 ] || fail "pytest $*" "$work/out"
        failed=$((failed + wrong))
    fi
    sed -n "s|^SKIPPED \[\([0-9]*\)\] [^ ]* \(.*\)\$|$1: \2 (tests: \1)|p" "$work/out" > "$work/skipped"
    while read -r left; do skip "$left"; done < "$work/skipped"
}

# Starts a script that counts its tests, alongside others; its name comes first. `gather` waits for all of them, shows
# what they print, and adds their counts.
begun=
begin() {
    begun="$begun $1"
    counted=$work/$1.counted
    shift
    "$@" > "$counted" 2>&1 &
}
gather() {
    wait
    for name in $begun; do
        sed '$d' "$work/$name.counted"
        add "$name" "$work/$name.counted"
    done
    begun=
}

# Adds the count of a script: its name, and the file with its output. A script none of whose tests passed has failed, if
# it doesn't say that it skipped them.
add() {
    last=$(tail -n 1 "$2")
    echo "$1: $last"
    if ! echo "$last" | grep -qx '[0-9][0-9]* passed, [0-9][0-9]* failed'; then
        fail "$1: no count"
        return
    fi
    if [ "$last" = '0 passed, 0 failed' ] && ! grep -q '^skipped: ' "$2"; then
        fail "$1: no test passed"
    fi
    passed=$((passed + ${last%% *}))
    last=${last#*, }
    failed=$((failed + ${last%% *}))
}

# Whether a command is here, and the first Python that has these modules.
has() { command -v "$1" > "$work/lost" 2>&1; }
python_with() { sh "$root/tools/python_with.sh" "$1"; }

# Text: so many times a character, and whether a file is this one line.
many() { head -c "$1" /dev/zero | tr '\0' "$2"; }
is_line() { { read -r line && [ "$line" = "$2" ] && ! read -r line && [ -z "$line" ]; } < "$1"; }
