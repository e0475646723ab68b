#!/bin/sh
# Prints the lowest version of glibc that has all that a program or a library needs of it, such as 2.14. With a
# second word, which is a version, the status is 1 if the file needs a later one.
set -eu
file=$1
most=${2:-}
needed=$(objdump -T "$file" | sed -n 's/.*[( ]GLIBC_\([0-9.]*\)[) ].*/\1/p' | sort -V | tail -n 1)
echo "$needed"
[ -z "$most" ] && exit 0
if [ "$(printf '%s\n%s\n' "$needed" "$most" | sort -V | tail -n 1)" != "$most" ]; then
    echo "$file needs glibc $needed, and no more than $most is allowed" >&2
    exit 1
fi
