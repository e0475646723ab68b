#!/bin/sh
# Tests what `rt ci` has just proved: the program and the documents by e2e.sh, beside them the library; then the
# extension for PostgreSQL, over that library, beside the packages; and then the page. The last line counts all tests:
# 'N passed, 0 failed'.
# Skipped tests are named and counted before it; if CI is set, a skipped test is a failure.
. "$(dirname "$0")/lib.sh"
cd "$root" || exit 1

# Most of these take minutes. One that hangs is ended, so that the others are still counted, and standard error says when
# they ended.
LONGEST=2400
begun_at=$(date +%s)
part() {
    name=$1
    shift
    begin "$name" timeout -k 10 "$LONGEST" "$@"
}
ended_now() { echo "tests of $* ended after $((($(date +%s) - begun_at) / 60)) min" >&2; }

{
    part quick sh tests/quick.sh
    part gate sh tests/gate.sh
    part library sh tests/library/run.sh proved
    part program sh tests/e2e.sh crates/twp_cmd/out/twp_cmd
    gather
    ended_now the library and the program
    part postgresql sh tests/postgresql/run.sh
    part packages sh tests/packages/all.sh
    gather
    ended_now PostgreSQL and the packages
    # It measures times, so nothing runs beside it.
    part page sh tests/page/run.sh
    gather
    ended_now the page
} > "$work/all"
cat "$work/all"
# Once more at the end, since all of this is long.
grep '^FAILED' "$work/all"
count_skipped "$work/all"
ended
