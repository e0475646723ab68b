#!/bin/sh
# Runs the program on each line of a list, as a description, in four parallel processes:
#
#     sh examples/each_land.sh NOTES LIST
#
# For each line, in the order of the list, it prints the program's exit status, its answer, and the line,
# separated by tabs. The program is the one that TOWNSHIP names, or `township` on the path, or ./township, as in
# the repository. If the list cannot be read or the program is not found, the script prints an error on standard
# error and exits with status 3.
set -eu
notes=$1
list=$2
program=$(command -v "${TOWNSHIP:-township}" || { [ -z "${TOWNSHIP:-}" ] && command -v ./township; }) || {
    echo "each_land.sh: there is no program ${TOWNSHIP:-township}" >&2
    exit 3
}
work=$(mktemp -d)
trap 'rm -rf "$work"' EXIT
# Pieces of 500 lines, named in the order of the list. The answers to each piece go to a file of their own.
split -a 4 -l 500 - "$work/piece." < "$list" || exit 3
[ -e "$work/piece.aaaa" ] || exit 0
printf '%s\0' "$work"/piece.* | xargs -0 -n 1 -P 4 sh -c '
    while IFS= read -r land || [ -n "$land" ]; do
        answer=$(printf %s "$land" | "$0" acres "$1" /dev/stdin 2> "$2.told")
        printf "%s\t%s\t%s\n" "$?" "$answer" "$land"
    done < "$2" > "$2.answers"
' "$program" "$notes"
cat "$work"/piece.*.answers
