#!/bin/sh
# Builds twp_trials and prints how many instructions 1,000 calls of each kind take on a `Land` of 200 mixed
# blocks, over `Grid` and over `Lanes`: the count of the whole process, less the count for only making the
# same `Land` and the same 1,000 sections and blocks. `take` is `meets` and then `add` of one block.
set -eu
(cd crates/twp_trials && rt run -- lanes count 10 > /dev/null)
program=crates/twp_trials/out/twp_trials
count() {
    env -i PATH="$PATH" valgrind --tool=callgrind --callgrind-out-file=/dev/null "$program" "$1" "$2" 1000 \
        2>&1 >/dev/null | sed -n 's/.*Collected : *//p'
}
printf '%-28s %12s %12s\n' '1,000 calls on mixed blocks' 'Grid' 'Lanes'
grid=$(count grid blocks)
lanes=$(count lanes blocks)
for work in add meets full count take; do
    more_grid=$(($(count grid "$work") - grid))
    more_lanes=$(($(count lanes "$work") - lanes))
    printf '%-28s %12s %12s\n' "$work" "$more_grid" "$more_lanes"
done
