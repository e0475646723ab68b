#!/bin/sh
# Runs the sample before any proof, so that a first `make run` answers within a minute or two: the program is compiled
# with checks and not proved. If a proved program exists, this does nothing. `make run` starts it beside the proofs.
set -eu
cd crates/twp_cmd
[ ! -x out/twp_cmd ] || exit 0
log=$(mktemp)
trap 'rm -f "$log"' EXIT
if ! rt try < stdin > "$log" 2>&1; then
    cat "$log" >&2
    exit 1
fi
answer=$(grep -v -e '^checked:' -e '^run=' "$log")
echo "The sample, by a build that is not proved yet: $answer. It runs again after the proofs."
