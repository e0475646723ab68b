#!/bin/sh
# Builds twp_trials and prints how many instructions it takes to read descriptions: the count of the whole
# process, less the count for reading nothing. The descriptions are the named files, or by default 65,536
# bytes of small parts, the same in lowercase, half as many, and 65,536 bytes of halves of halves in words.
set -eu
(cd crates/twp_trials && rt run -- lanes count 10 > /dev/null)
program=crates/twp_trials/out/twp_trials
count() {
    env -i PATH="$PATH" valgrind --tool=callgrind --callgrind-out-file=/dev/null "$program" text \
        < "$1" 2>&1 >/dev/null | sed -n 's/.*Collected : *//p'
}
work=$(mktemp -d)
trap 'rm -rf "$work"' EXIT
# A description of $2 bytes: section 8 with part $1 again and again, and spaces after the last whole part.
parts() {
    awk -v part="$1" -v size="$2" 'BEGIN {
        text = "sec. 8, " part
        while (length(text) + length(part) + 2 <= size) text = text ", " part
        while (length(text) < size) text = text " "
        printf "%s", text
    }'
}
: > "$work/nothing"
if [ $# -eq 0 ]; then
    parts 'NE1/4SW1/4NW1/4SE1/4' 65536 > "$work/parts"
    parts 'ne1/4sw1/4nw1/4se1/4' 65536 > "$work/lowercase"
    parts 'NE1/4SW1/4NW1/4SE1/4' 32768 > "$work/half as many"
    parts 'N1/2 of the E1/2 of the NW1/4' 65536 > "$work/words"
    set -- "$work/parts" "$work/lowercase" "$work/half as many" "$work/words"
fi
nothing=$(count "$work/nothing")
printf '%-44s %12s\n' 'description' 'instructions'
for file in "$@"; do
    printf '%-44s %12s\n' "$(basename "$file")" "$(($(count "$file") - nothing))"
done
