#!/bin/sh
# Writes into a program or a shared library which build it is, as a note of the form in which distributions do so
# (.note.package), which `readelf -n` shows, and `strings` or `grep -a`:
#
#     {"type":"build","name":"township","version":"1.0.0~git20261129171830.4c16720c","commit":"4c16720c.."}
#
#     sh packaging/marked.sh FILE
set -eu
cd "$(dirname "$0")/.."
file=$1
work=$(mktemp -d)
trap 'rm -rf "$work"' EXIT

printf '{"type":"build","name":"township","version":"%s","commit":"%s"}' \
    "$(sh packaging/version.sh --debian)" "$(sh packaging/sources.sh --commit)" > "$work/text"
# A null byte ends the text, and more of them fill its last four bytes.
length=$(($(wc -c < "$work/text") / 4 * 4 + 4))
[ "$length" -lt 256 ] || {
    echo "the note on the build is too long: $length bytes" >&2
    exit 1
}
{
    # The length of the name, that of the text, the type, and the name.
    printf '\004\000\000\000'
    printf "\\$(printf %03o "$length")\000\000\000"
    printf '\176\032\376\312FDO\000'
    cat "$work/text"
    head -c $((length - $(wc -c < "$work/text"))) /dev/zero
} > "$work/note"
objcopy --add-section .note.package="$work/note" --set-section-flags .note.package=noload,readonly "$file"
