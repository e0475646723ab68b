#!/bin/sh
# Tests that a version means one build: the versions of builds before a release, of the release, and of what follows,
# and the script for releases. In a repository of its own, which has only what the version depends on. The last line is
# 'N passed, M failed'.
. "$(dirname "$0")/../lib.sh"
cd "$root" || exit 1
there=$work/there
mkdir "$there"
tar -cf - CHANGELOG.md crates/twp_calls/src/version.rt include packaging postgresql | tar -C "$there" -xf -
cd "$there" || exit 1
version=$(sh packaging/version.sh)
major=${version%%.*}

# Commits all, at a time in seconds since 1970, as nobody in particular.
git() { command git -c user.name=nobody -c user.email=nobody@example.com -c commit.gpgsign=false "$@"; }
commit() {
    git add -A
    GIT_AUTHOR_DATE="@$1 +0000" GIT_COMMITTER_DATE="@$1 +0000" git commit -q -m 'a change' 2> "$work/lost"
    git rev-parse HEAD | cut -c 1-8
}
shows() {
    what=$1 wanted=$2
    shift 2
    echo "$wanted" > "$work/wanted"
    "$@" > "$work/found" 2>&1
    same "$what"
}
lower() { try "$1 is lower than $2" dpkg --compare-versions "$1" lt "$2"; }
is_released() {
    for form in --debian --python --rust; do shows "a release, $form" "$version" sh packaging/version.sh $form; done
}

git init -q .
printf '/SOURCES\n' > .gitignore
# 2027-01-02 03:04:05 and 06.
first=$(commit 1798859045)
shows 'before a release, for Debian' "$version~git20270102030405.$first" sh packaging/version.sh --debian
shows 'before a release, for Python' "$version.dev20270102030405+g$first" sh packaging/version.sh --python
shows 'before a release, for Rust' "$version-git.20270102030405.g$first" sh packaging/version.sh --rust
try 'before a release, everything agrees' sh packaging/version.sh --check
earlier=$(sh packaging/version.sh --debian)
echo >> CHANGELOG.md
shows 'with a change' "$earlier.dirty" sh packaging/version.sh --debian
second=$(commit 1798859046)
shows 'a second later' "$version~git20270102030406.$second" sh packaging/version.sh --debian
lower "$earlier" "$(sh packaging/version.sh --debian)"
lower "$(sh packaging/version.sh --debian)" "$version"
lower 1.0.0~git20270102235959.ffffffff 1.0.0~git20270103000000.00000000

# In an archive of the sources, without git.
sh packaging/sources.sh --write > SOURCES
mv .git ../git
shows 'without git' "$version~git20270102030406.$second" sh packaging/version.sh --debian
try 'without git, everything agrees' sh packaging/version.sh --check
mv ../git .git

# Everything says that it is unreleased, or the check fails.
for file in CHANGELOG.md packaging/libtownship.abi packaging/libtownship.map postgresql/township--1.0.0.sql; do
    sed -i.kept 's/unreleased/2027-01-01/' "$file"
    sh packaging/version.sh --check > "$work/found" 2>&1
    echo "status $?" >> "$work/found"
    try "$file must say that it is unreleased" grep "^$file .*there is no tag\|^$file doesn't say" "$work/found"
    try "and the check fails for $file" grep -x 'status 1' "$work/found"
    mv "$file.kept" "$file"
done

# A function that the record of the ABI lacks, or a changed one.
if command -v abidw > "$work/lost"; then
    try 'the ABI is recorded' sh packaging/abi.sh
    sed -i.kept '/elf-symbol name=.township_suggest/d' packaging/libtownship.abi
    try 'a function is missing in the record' sh -c '! sh packaging/abi.sh'
    mv packaging/libtownship.abi.kept packaging/libtownship.abi
    sed -i.kept '/township_suggest;/d' packaging/libtownship.map
    try 'a function is missing in the map' sh -c '! sh packaging/abi.sh'
    mv packaging/libtownship.map.kept packaging/libtownship.map

    # The release, and a commit after it.
    export GIT_AUTHOR_NAME=nobody GIT_AUTHOR_EMAIL=nobody@example.com
    export GIT_COMMITTER_NAME=nobody GIT_COMMITTER_EMAIL=nobody@example.com
    echo >> CHANGELOG.md
    try 'a release needs all changes to be committed' sh -c '! sh packaging/release.sh --prepare'
    git checkout -q CHANGELOG.md
    try 'a release is prepared' sh packaging/release.sh --prepare
    is_released
    try 'in a release, everything agrees' sh packaging/version.sh --check
    try 'nothing says that it is unreleased' sh -c '! grep -rw unreleased CHANGELOG.md postgresql packaging/libtownship.*'
    try 'the ABI of the release is recorded' sh packaging/abi.sh
    sh packaging/sources.sh --write > SOURCES
    mv .git ../git
    is_released
    mv ../git .git
    try 'a version is released once' sh -c '! sh packaging/release.sh --prepare'
    . "$root/tests/packages/verified.sh"
    echo >> CHANGELOG.md
    commit 1898859045 > "$work/lost"
    try 'after a release, the version has to be raised' sh -c '! sh packaging/version.sh --check'
    next=$major.99.0
    sed -i "s/\"$version\"/\"$next\"/" crates/twp_calls/src/version.rt
    sed -i "0,/^## /s/^## /## $next (unreleased)\n\n- A change.\n\n&/" CHANGELOG.md
    commit 1898859046 > "$work/lost"
    try 'with the next version, everything agrees' sh packaging/version.sh --check
    refuses 'a build between releases' 'not the commit with the tag'
    lower "$version" "$(sh packaging/version.sh --debian)"
    try 'its changelog has both versions' sh -c \
        '[ "$(sh packaging/debian_changelog.sh | grep -c "^township (")" = 2 ]'

    # The next release, which is upgraded from the one before.
    git checkout -q -- .
    try 'the next release is prepared' sh packaging/release.sh --prepare
    refuses 'the next release without the one before' 'name the folder'
    packages_of "$version"
    verifies 'the next release' "$work/packages" "$work/packages"
else
    skip 'the record of the ABI, and releases, which record it: no abidw'
fi
ended
