#!/bin/sh
# Makes the packages a second time and compares their checksums with those in dist/, or in the folder that is named: from
# the archive of the sources there, without git, in another folder, as another user (if user namespaces can be made here),
# in another language and time zone, with another umask, and on another day (if faketime is installed). With --compile,
# first compiles the program and the library again there. The status is 1 if a file differs; diffoscope, if it is
# installed, shows where.
set -eu
cd "$(dirname "$0")/.."
images=$(sh tests/packages/image.sh --folder)
compile=
if [ "${1:-}" = --compile ]; then
    compile=yes
    shift
fi
first=$(readlink -f "${1:-dist}")
work=$(mktemp -d)
trap 'rm -rf "$work"' EXIT
there=$work/a-folder/of-another/user

# The archive of the sources, what was built, and what was proved if it is to be compiled again.
copy_tree() {
    mkdir -p "$there"
    tar -C "$there" --strip-components=1 -xf "$first"/township-*-source.tar.gz
    mkdir -p "$there/crates/twp_cmd/out"
    cp crates/twp_cmd/out/twp_cmd.o "$there/crates/twp_cmd/out"
    cp -a lib "$there"
    if [ -n "$compile" ]; then
        for folder in crates/*/out/rlib; do
            mkdir -p "$there/${folder%/*}"
            cp -a "$folder" "$there/$folder"
        done
        rm -rf "$there/lib" "$there/crates/twp_cmd/out/twp_cmd.o"
    fi
}

# Runs a command in that folder under other circumstances.
elsewhere() {
    (
        cd "$there"
        umask 077
        set -- env PATH="$work/no-git:$PATH" LC_ALL=tr_TR.UTF-8 LANGUAGE=tr TZ=Pacific/Auckland "$@"
        # If rustup has installed cargo, cargo looks for its toolchain in the home of this user.
        set -- env HOME="$work/home" TOWNSHIP_IMAGES="$images" RUSTUP_HOME="${RUSTUP_HOME:-${HOME:-/root}/.rustup}" "$@"
        if command -v faketime > "$work/lost"; then set -- faketime '+400 days' "$@"; fi
        # The user nobody, who may still read what this user may.
        other='unshare --user --map-user=65534 --map-group=65534'
        if $other true 2> "$work/lost"; then set -- $other "$@"; fi
        "$@"
    )
}

copy_tree
mkdir "$work/home" "$work/no-git"
printf '#!/bin/sh\necho "there is no git here" >&2\nexit 127\n' > "$work/no-git/git"
chmod +x "$work/no-git/git"
if [ -n "$compile" ]; then
    elsewhere sh tools/over_proved.sh twp_cmd
    elsewhere sh tools/library.sh /usr/local proved
fi
elsewhere sh packaging/dist.sh "$there/dist" > "$work/made" 2>&1 || {
    cat "$work/made" >&2
    exit 1
}
if diff "$first/SHA256SUMS" "$there/dist/SHA256SUMS"; then
    echo "the same bytes: $(wc -l < "$first/SHA256SUMS") files"
    exit
fi
if command -v diffoscope > "$work/lost"; then
    diffoscope "$first" "$there/dist"
fi
exit 1
