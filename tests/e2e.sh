#!/bin/sh
# Tests ./township, or the program that is named, as people use it, and the documents and the installation that go with
# it; twp_trials is taken from its crate, or is named second. The last line counts all tests: 'N passed, 0 failed'.
. "$(dirname "$0")/lib.sh"
name_programs "$@"
tests=$root/tests/program
begin rows sh "$tests/rows.sh" "$program" "$calls"
begin streams sh "$tests/streams.sh" "$program"
begin damaged sh "$tests/damaged.sh" "$program"
begin largest sh "$tests/largest.sh" "$program"
begin limits env -i PATH="$PATH" sh "$tests/limits.sh" "$program"
begin growths sh "$tests/growths.sh" "$program" "$calls"
# Descriptions as people write them: the land that is accepted, where the advice leads, and how they are read.
if python=$(sh "$root/tools/python_with.sh" argparse); then
    begin descriptions "$python" "$root/tests/descriptions/check.py" "$program"
    # How the descriptions of each author are read, and where the advice on the refused ones leads: it must never lead to
    # wrong land.
    for author in $(sed '1d; s/\t.*//' "$root/tests/descriptions/floors.tsv"); do
        rows=$root/tests/descriptions/$author.tsv
        begin "$author" "$python" "$root/tests/descriptions/suggested.py" "$program" "$calls" "$rows"
        begin "followed-$author" "$python" "$root/tests/descriptions/follow.py" "$program" "$rows"
    done
    begin mutated "$python" "$root/tests/descriptions/mutated.py" "$program" "$calls"
    # What is said of those without a reading.
    begin unread "$python" "$root/tests/descriptions/unread.py" "$calls"
else
    skip 'the descriptions, since there is no Python here'
fi
begin documents sh "$root/tests/documents/documents.sh" "$program"
begin installed sh "$root/tests/documents/installed.sh" "$program"
gather
ended
