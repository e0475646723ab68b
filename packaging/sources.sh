#!/bin/sh
# Says which sources these are. git knows, or in an archive of the sources the file SOURCES, which packaging/dist.sh puts
# there.
#
#     --commit   the commit
#     --date     the time of the commit, in seconds since 1970
#     --state    'released' if the commit has the tag of this version and no file was changed since, 'changed' if one
#                was, or else 'between'
#     --files    the names of the files, each followed by a null byte
#     --write    what the file SOURCES has to contain
#
# TOWNSHIP_SOURCES can name another such file: while packages are made, it stays the same even if a file is changed.
set -eu
cd "$(dirname "$0")/.."
recorded=${TOWNSHIP_SOURCES:-SOURCES}

has_git() { [ -z "${TOWNSHIP_SOURCES:-}" ] && [ -e .git ]; }
tag() { echo "v$(sh packaging/version.sh)"; }

commit() { git rev-parse HEAD; }
date_of() { git log -1 --format=%ct; }
state() {
    if [ -n "$(git status --porcelain --untracked-files=no)" ]; then
        echo changed
    elif git tag --points-at HEAD | grep -qxF "$(tag)"; then
        echo released
    else
        echo between
    fi
}

# A line of the file, by its name.
line() { sed -n "s/^$1: //p" "$recorded"; }

case ${1:-} in
    --commit) if has_git; then commit; else line commit; fi ;;
    --date) if has_git; then date_of; else line date; fi ;;
    --state) if has_git; then state; else line state; fi ;;
    --files)
        if has_git; then
            git ls-files -z
        else
            sed '1,/^$/d' "$recorded" | tr '\n' '\000'
        fi
        ;;
    --write)
        printf 'commit: %s\ndate: %s\nstate: %s\n\n' "$(sh "$0" --commit)" "$(sh "$0" --date)" "$(sh "$0" --state)"
        sh "$0" --files | tr '\000' '\n'
        ;;
    *)
        echo 'usage: sh packaging/sources.sh --commit | --date | --state | --files | --write' >&2
        exit 2
        ;;
esac
