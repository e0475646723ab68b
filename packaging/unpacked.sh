#!/bin/sh
# Unpacks all packages of a folder into another one, and makes sure that none of the further words, such as the paths of
# a build, occurs in any file.
#
#     sh packaging/unpacked.sh dist unpacked "$PWD"
set -eu
dist=$(readlink -f "$1")
to=$(readlink -m "$2")
shift 2
for file in "$dist"/*; do
    folder=$to/${file##*/}
    mkdir -p "$folder"
    case $file in
        *.deb) dpkg-deb -R "$file" "$folder" ;;
        *.tar.gz | *.crate) tar -C "$folder" -xf "$file" ;;
        *.whl) python3 -m zipfile -e "$file" "$folder" ;;
        *) cp "$file" "$folder" ;;
    esac
done
find "$to" -type f -name '*.gz' -exec gunzip {} +
status=0
for word in "$@"; do
    if grep -rlF -e "$word" "$to"; then
        echo "these files contain '$word'"
        status=1
    fi
done
exit "$status"
