#!/bin/sh
# Prints the version of the program and the library, which is written in one place: the constant that the library's call
# township_version returns. The packages of a release, a commit with the tag vVERSION, have the same version. Any other
# build has one of its own, which is lower than that of the release, and later for a later commit:
#
#     --debian   1.0.0~git20261129171830.4c16720c         the Debian packages
#     --python   1.0.0.dev20261129171830+g4c16720c        the wheel, as PEP 440 wants it
#     --rust     1.0.0-git.20261129171830.g4c16720c       the crate and the archives: semantic versioning
#
# These are the time of the commit, in UTC, and its first digits; `.dirty` follows if files were changed since.
#
# With --check, makes sure that whatever repeats the version agrees, and says `unreleased` if it isn't the version of a
# release, and only then; tools/header_names.py checks the header and the bindings. The extension for PostgreSQL counts
# the versions of its SQL itself: its scripts must lead to the version that it says.
set -eu
cd "$(dirname "$0")/.."
version=$(sed -n 's/^pub(crate) const VERSION: .* = "\(.*\)";$/\1/p' crates/twp_calls/src/version.rt)

# The version of this build, with what stands before the time and before the commit.
build() {
    state=$(sh packaging/sources.sh --state)
    if [ "$state" = released ]; then
        echo "$version"
        return
    fi
    time=$(date -u -d "@$(sh packaging/sources.sh --date)" +%Y%m%d%H%M%S)
    commit=$(sh packaging/sources.sh --commit | cut -c 1-8)
    changed=
    [ "$state" != changed ] || changed=.dirty
    echo "$version$1$time$2$commit$changed"
}

case ${1:-} in
    '')
        echo "$version"
        exit
        ;;
    --debian) build '~git' . && exit ;;
    --python) build .dev +g && exit ;;
    --rust) build -git. .g && exit ;;
    --check) ;;
    *)
        echo 'usage: sh packaging/version.sh [--debian | --python | --rust | --check]' >&2
        exit 2
        ;;
esac

status=0
wrong() {
    echo "$1" >&2
    status=1
}
heading=$(sed -n 's/^## \(.*\)/\1/p' CHANGELOG.md | head -n 1)
if [ "${heading%% *}" != "$version" ]; then
    wrong "CHANGELOG.md has the version '${heading%% *}', and crates/twp_calls/src/version.rt has '$version'"
fi
# Its tag says whether this version is released. In an archive of the sources, which has no tags, SOURCES says it.
if [ -e .git ]; then
    tagged=$(git rev-parse -q --verify "refs/tags/v$version^{commit}" || true)
else
    tagged=$([ "$(sh packaging/sources.sh --state)" != released ] || sh packaging/sources.sh --commit)
fi
if [ -n "$tagged" ] && [ "$tagged" != "$(sh packaging/sources.sh --commit)" ]; then
    wrong "version $version was released: raise it in crates/twp_calls/src/version.rt and CHANGELOG.md"
fi
case $heading in *'(unreleased)') ;; *) [ -n "$tagged" ] || wrong "CHANGELOG.md has a date, but there is no tag v$version" ;; esac
# Before the first release, these say that they may still change; in a release, nothing does.
releases=$(grep -c '^## ' CHANGELOG.md)
for file in CHANGELOG.md packaging/libtownship.abi packaging/libtownship.map postgresql/township--*.sql; do
    says=$(grep -cw 'unreleased' "$file" || true)
    if [ -n "$tagged" ] && [ "$says" != 0 ]; then
        wrong "$file says that it is unreleased, and there is a tag v$version"
    elif [ -z "$tagged" ] && [ "$releases" = 1 ] && [ "$says" = 0 ]; then
        wrong "$file doesn't say that it is unreleased, and nothing is released"
    fi
done
scripts=$(sed -n 's/^DATA = //p' postgresql/Makefile)
last=${scripts##*--}
if ! grep -qx "default_version = '${last%.sql}'" postgresql/township.control; then
    wrong "postgresql/township.control has another version than the last script in the Makefile, ${last%.sql}"
fi
if [ "$(echo "$scripts" | tr ' ' '\n' | sort)" != "$(cd postgresql && ls township--*.sql | sort)" ]; then
    wrong "the scripts in postgresql/Makefile are not those in its folder"
fi
exit "$status"
