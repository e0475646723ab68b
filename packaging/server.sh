#!/bin/sh
# Makes the Debian package of the extension for the PostgreSQL of another Debian: in an image of that Debian, made by
# tests/packages/image.sh, without a network. The image isn't changed.
#
#     sh packaging/server.sh 17 TREE TO    make it from the tree of the Debian packages, and put it into the folder TO
#     sh packaging/server.sh --tools 17    print what it is made with
#     sh packaging/server.sh --list        print the servers: those of Debian 11, 13, and what will be Debian 14
#
# Only root can make an image. With one that is there, any user can make the package who may make namespaces.
set -eu
cd "$(dirname "$0")/.."

image_of() { sh tests/packages/image.sh "server$1"; }

# Of the packages in debian/control, the one of the extension, for this server, with what it is made with.
control_for() {
    awk -v RS= -v ORS='\n\n' '/^Source: / || /^Package: postgresql-/' packaging/debian/control |
        sed -e '/^ \(bash-completion\|dh-python\|python3[a-z-]*\),$/d' \
            -e "s/postgresql-\(server-dev-\|\)15/postgresql-\1$1/; s/PostgreSQL 15/PostgreSQL $1/"
}

make_package() {
    image=$(image_of "$1")
    to=$3
    there=$(mktemp -d)
    trap 'rm -rf "$there"' EXIT
    cp -a "$2" "$there/township"
    control_for "$1" > "$there/township/debian/control"
    touch -d "@$SOURCE_DATE_EPOCH" "$there/township/debian/control"
    as_root=
    [ "$(id -u)" = 0 ] || as_root='--user --map-root-user'
    unshare $as_root --mount --net --pid --ipc --uts --fork sh -eu -c '
        mount --bind "$2" "$1/mnt"
        mount -t tmpfs tmpfs "$1/tmp"
        mount -t proc proc "$1/proc"
        # Without the list of what Debian expects for every package (-I): it has a compiler for C++, which this one
        # does not need.
        exec chroot "$1" /usr/bin/env -i HOME=/tmp LC_ALL=C.UTF-8 TZ=UTC PATH=/usr/sbin:/usr/bin:/sbin:/bin \
            sh -euc "cd /mnt/township && dpkg-checkbuilddeps -I && dpkg-buildpackage -d -b -us -uc"
    ' sh "$image" "$there"
    mv "$there/postgresql-$1-township_"*.deb "$to"
}

tools() {
    image=$(image_of "$1")
    echo "Debian $(cat "$image/etc/debian_version"), for PostgreSQL $1, with:"
    for name in gcc binutils libc6-dev dpkg-dev debhelper "postgresql-server-dev-$1"; do
        dpkg-query --admindir="$image/var/lib/dpkg" -W -f '    ${Package} ${Version}\n' "$name"
    done
}

case ${1:-} in
    --list) echo 13 17 18 ;;
    --tools) tools "$2" ;;
    [0-9]*) make_package "$1" "$2" "$3" ;;
    *)
        echo 'usage: sh packaging/server.sh SERVER TREE TO | --tools SERVER | --list' >&2
        exit 2
        ;;
esac
