#!/usr/bin/env bash
# Runs the kit's own `rt ci`, which proves every crate, tries the wrong bodies in must-fail/, and runs the programs, and
# exits with its status. The file gate.log gets the complete output. The terminal shows it for crates that are not
# proved, and for wrong bodies that no goal refuses; otherwise, a line for each crate. The last line is
# 'N passed, M failed'.
set -euo pipefail
cd "$(dirname "$0")/.."

# By default, rt gives a proof more processes if processors are idle, which takes up to a third more processor time. A
# check takes up to 4 GB of memory.
processors=$(nproc)
memory=$(awk '$1 == "MemAvailable:" { print int($2 / 4000000) }' /proc/meminfo)
checks=$((memory < processors ? memory : processors))
export RT_JOBS="${RT_JOBS:-$((checks > 1 ? checks : 1))}"

# The output of a crate begins with a line of two equals signs, and ends with one that says whether it is proved. If the
# run was cut off, lines are left at the end.
shown() {
    local line held=()
    while IFS= read -r line || [ -n "$line" ]; do
        case $line in
            '== '*) held=("$line") ;;
            'rt: '*' NOT PROVED') printf '%s\n' "${held[@]}" "$line" && held=() ;;
            'rt: '*' proved') echo "$line" && held=() ;;
            'rt: must-fail '*': refused, as it must be: '* | 'rt: must-fail '*': refused, as it must be' | 'test '*' ... ok') ;;
            *) if [ ${#held[@]} = 0 ]; then echo "$line"; else held+=("$line"); fi ;;
        esac
    done
    printf '%s' "${held[@]/%/$'\n'}"
}
rt ci 2>&1 | tee gate.log | shown

# A run that passed nothing has failed, and so has one with a wrong body that can't be applied or compiled: some kits
# only mention that.
tail -n 1 gate.log | grep -q '^[1-9][0-9]* passed, 0 failed$'
if grep -q '^rt: .*BAD EDIT' gate.log; then
    echo 'the gate failed: a wrong body is a BAD EDIT, as said above'
    exit 1
fi
