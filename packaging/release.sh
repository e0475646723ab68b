#!/bin/sh
# The steps of a release that a script can do; docs/RELEASING.md has all of them.
#
#     sh packaging/release.sh --prepare            date the changelog, record the ABI, commit, and tag
#     sh packaging/release.sh --verify [EARLIER]   make the packages in dist/ from that commit, and upgrade to them, in
#                                                  images, from those in the folder EARLIER, which are of the release
#                                                  before; the first release, from a version that is made up
#
# Neither pushes or signs anything.
set -eu
cd "$(dirname "$0")/.."
version=$(sh packaging/version.sh)

stop() {
    echo "$1" >&2
    exit 1
}

# Nothing of this version says any more that it is unreleased.
date_version() {
    sed -i "s/^## $version (unreleased)\$/## $version ($(date -u +%Y-%m-%d))/" CHANGELOG.md
    sed -i '/^-- unreleased: /d' postgresql/township--*.sql
    sed -i '/^# unreleased: /d' packaging/libtownship.map
    sh packaging/abi.sh --update
}

prepare() {
    grep -qx "## $version (unreleased)" CHANGELOG.md || stop "CHANGELOG.md has no heading '## $version (unreleased)'"
    [ "$(sh packaging/sources.sh --state)" != changed ] || stop 'there are changes that are not committed'
    sh packaging/version.sh --check
    # A program that was compiled with the release before still works, or the first number of the version is higher.
    recorded=$(sed -n "s/.* soname='libtownship\.so\.\([0-9]*\)'.*/\1/p" packaging/libtownship.abi)
    [ "$recorded" != "${version%%.*}" ] || sh packaging/abi.sh
    date_version
    git commit -q -a -m "Release $version"
    git tag -a -m "township $version" "v$version"
    sh packaging/version.sh --check
    echo "the commit $(git rev-parse --short HEAD) has the tag v$version; nothing is pushed"
}

# The tests that upgrade packages, each after the image that it is run in.
upgrades() {
    printf '%s\n' 'bare program' 'bare python' 'tools library' 'database postgresql'
    for server in $(sh packaging/server.sh --list); do echo "server$server postgresql"; done
}

verify() {
    [ "$(sh packaging/sources.sh --state)" = released ] || stop "this is not the commit with the tag v$version, unchanged"
    sh packaging/version.sh --check
    if [ -n "${1:-}" ]; then
        earlier=$(readlink -f "$1") || stop "there is no folder $1"
        (cd "$earlier" 2> /dev/null && sha256sum --quiet --strict -c SHA256SUMS) ||
            stop "$1 is no folder with the packages of a release, as its SHA256SUMS lists them"
    elif [ "$(grep -c '^## ' CHANGELOG.md)" -gt 1 ]; then
        stop 'name the folder with the packages of the release before'
    fi
    make dist
    if [ -n "${earlier:-}" ]; then
        before=$(dpkg-deb -f "$earlier"/township_*_amd64.deb Version)
        dpkg --compare-versions "$before" lt "$version" || stop "version $before in $1 is not before $version"
        export TOWNSHIP_EARLIER="$earlier"
    fi
    for server in $(sh packaging/server.sh --list); do
        [ -e "dist/postgresql-$server-township_${version}_amd64.deb" ] || stop "there is no package for PostgreSQL $server"
    done
    upgrades | while read -r image test; do
        echo "$test on the image $image"
        sh tests/packages/inside.sh "$image" "$test" dist < /dev/null
    done
    echo "the packages are in dist/; they and the tag still have to be signed, with the owner's key"
}

case ${1:-} in
    --prepare) prepare ;;
    --verify) verify "${2:-}" ;;
    *) stop 'usage: sh packaging/release.sh --prepare | --verify [EARLIER]' ;;
esac
