#!/bin/sh
# Prints the folders of images of a minimal Debian, which it makes the first time, as root, with debootstrap:
#
#     bare      Debian 12 with Python, and with what the packages depend on or add to: no compiler
#     database  Debian 12 with PostgreSQL 15
#     tools     Debian 12 with compilers for C and C++
#     rust      Debian 13 with a compiler for Rust, and the crates that ours can use; the compiler of Debian 12 is too old
#     older     Debian 11, which has glibc 2.31
#     newer     Debian 13, which has glibc 2.41 and Python 3.13
#     next      what will be Debian 14, which has Python 3.14
#     testbed   Debian 12 with autopkgtest, PostgreSQL 15, and a compiler for C
#     server13  Debian 11 with PostgreSQL 13, a compiler for C, and the tools that make Debian packages
#     server17  Debian 13 with PostgreSQL 17 and the same
#     server18  what will be Debian 14 with PostgreSQL 18 and the same
#     servers   Debian 13 with PostgreSQL 17 and the same, and with the PostgreSQL 15 that Debian 12 left in it
#
#     sh tests/packages/image.sh bare database tools rust older newer next testbed server13 server17 server18 servers
#
# The images are kept in TOWNSHIP_IMAGES, by default in the user's cache, and take 9 GB; with --folder, prints only that
# folder. Delete it to make them anew. TOWNSHIP_MIRROR can name another mirror of Debian's archive.
set -eu
mirror=${TOWNSHIP_MIRROR:-http://deb.debian.org/debian}
images=${TOWNSHIP_IMAGES:-${XDG_CACHE_HOME:-${HOME:-/root}/.cache}/township/images}
python='python3 python3-pip'
shells='man-db bash-completion'
server() { echo "sse4.2-support postgresql-$1 postgresql-server-dev-$1 debhelper gcc libc6-dev make"; }

# The suite of an image, and the packages in it. One with a slash is from another suite, which is named after it.
contents() {
    case $1 in
        bare) echo "bookworm sse4.2-support $shells $python" ;;
        database) echo 'bookworm sse4.2-support postgresql-15' ;;
        tools) echo 'bookworm sse4.2-support gcc g++ libc6-dev pkg-config' ;;
        rust) echo 'trixie sse4.2-support gcc libc6-dev cargo librust-serde-dev' ;;
        older) echo "bullseye sse4.2-support $shells $python" ;;
        newer) echo "trixie sse4.2-support $shells $python" ;;
        next) echo "forky sse4.2-support $shells $python" ;;
        testbed) echo "bookworm sse4.2-support autopkgtest dpkg-dev postgresql-15 gcc libc6-dev pkg-config python3" ;;
        server13) echo "bullseye $(server 13)" ;;
        server17) echo "trixie $(server 17)" ;;
        server18) echo "forky $(server 18)" ;;
        servers) echo "trixie $(server 17) postgresql-15/bookworm" ;;
        *)
            echo "there is no image '$1'" >&2
            exit 2
            ;;
    esac
}

if [ "${1:-}" = --folder ]; then
    echo "$images"
    exit
fi

# Runs a command that makes a folder, which is there only if the command succeeds.
make_folder() {
    folder=$1
    shift
    [ ! -d "$folder" ] || return 0
    rm -rf "$folder.part"
    "$@" > "$folder.log" 2>&1 || {
        tail -n 5 "$folder.log" >&2
        rm -rf "$folder.part"
        exit 1
    }
    mv "$folder.part" "$folder"
}

# Installs packages in a copy of the minimal system. A mirror may be some weeks behind with the next Debian, whose lists
# then count as expired.
install() {
    cp -a "$1" "$2"
    for other in $(echo "$3" | tr ' ' '\n' | sed -n 's|.*/||p' | sort -u); do
        echo "deb $mirror $other main" >> "$2/etc/apt/sources.list"
    done
    unshare --mount --pid --fork sh -eu -c '
        mount -t proc proc "$1/proc"
        chroot "$1" env DEBIAN_FRONTEND=noninteractive LC_ALL=C.UTF-8 sh -euc "
            apt-get -q -o Acquire::http::Timeout=60 -o Acquire::Check-Valid-Until=false update
            apt-get -q -y -o Acquire::http::Timeout=60 -o Dpkg::Options::=--force-unsafe-io --no-install-recommends \
                install $2
            apt-get clean"
    ' sh "$2" "$3"
}

mkdir -p "$images"
for name in "$@"; do
    wanted=$(contents "$name")
    suite=${wanted%% *}
    packages=${wanted#* }
    # Another list of packages makes another image.
    image=$images/$suite-$(echo "$packages" | cksum | cut -d ' ' -f 1)
    minimal=$images/$suite
    # One at a time, also if this script runs twice. An image that is there waits for no other.
    [ -d "$image" ] || (
        flock 9
        if [ ! -d "$image" ]; then
            # An older debootstrap doesn't know the name of a newer Debian, which is made as all are.
            scripts=/usr/share/debootstrap/scripts
            [ -e "$scripts/$suite" ] && script=$suite || script=sid
            make_folder "$minimal" timeout 1200 debootstrap --variant=minbase "$suite" "$minimal.part" "$mirror" \
                "$scripts/$script"
            make_folder "$image" install "$minimal" "$image.part" "$packages"
        fi
    ) 9> "$images/lock"
    echo "$image"
done
