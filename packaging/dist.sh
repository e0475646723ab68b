#!/bin/sh
# Makes the packages from the program and the library, which must be built, in the folder dist/, or in the one that is
# named: Debian packages, a wheel for Python, a crate for Rust, an archive for any Linux on x86-64, one of the sources,
# BUILDINFO, and SHA256SUMS. The same commit makes the same bytes, in any folder and for any user: the time of each
# file is that of the commit, and no setting of this machine or its user counts.
#
# The extension for the PostgreSQL of other Debians is made in images of these (packaging/server.sh). If there is none,
# and none can be made here, those packages are left out, and a line 'left out: ..' says so.
set -eu
LC_ALL=C.UTF-8
TZ=UTC
export LC_ALL TZ
umask 022
# No options of a make that calls this script, and none for Debian's tools.
unset MAKEFLAGS MFLAGS MAKELEVEL DEB_BUILD_OPTIONS DEB_BUILD_PROFILES DEB_BUILD_MAINT_OPTIONS
cd "$(dirname "$0")/.."
dist=$(readlink -m "${1:-dist}")
object=crates/twp_cmd/out/twp_cmd.o
work=$(mktemp -d)
trap 'rm -rf "$work"' EXIT
# Which sources these are is asked once.
sh packaging/sources.sh --write > "$work/SOURCES"
export TOWNSHIP_SOURCES="$work/SOURCES"
version=$(sh packaging/version.sh)
build=$(sh packaging/version.sh --rust)
# Debian's own Python before any other, since BUILDINFO names the versions of Debian's packages.
python=$(PYTHON=/usr/bin/python3 sh tools/python_with.sh 'build, setuptools, wheel')
SOURCE_DATE_EPOCH=$(sh packaging/sources.sh --date)
export SOURCE_DATE_EPOCH
if [ ! -e lib/libtownship.so ] || { [ ! -f "$object" ] && [ ! -f "${object%.o}" ]; }; then
    echo 'build the program and the library first: make township lib' >&2
    exit 1
fi
stage=$work/township-$build
binary=$work/township-$build-linux-x86_64

# Where Debian puts the sources of crates.
REGISTRY=/usr/share/cargo/registry

# The latest versions of glibc that may be needed: that of Debian 10, for the program; and for the library that of the
# wheel's tag, which any pip since 2019 knows.
PROGRAM_GLIBC=2.28
LIBRARY_GLIBC=2.17
WHEEL_TAG=manylinux2014_x86_64

# Runs a step, and shows its output only if it fails. In the background, the first command that fails ends it.
step() {
    echo "$1"
    shift
    "$@" > "$work/log" 2>&1 &
    wait $! || {
        cat "$work/log" >&2
        exit 1
    }
}

# An archive of a folder in `work`, without anything of this machine in it.
pack() {
    tar -C "$work" --sort=name --mtime="@$SOURCE_DATE_EPOCH" --owner=0 --group=0 --numeric-owner \
        --mode='u=rwX,go=rX' --format=gnu -cf - "$1" | gzip -9n > "$2"
}

# The sources, as they are in this folder, with the modes that git knows; and the file that stands for git in the archive.
copy_sources() {
    mkdir "$stage"
    sh packaging/sources.sh --files | tar --null --files-from=- --mode='u=rwX,go=rX' --mtime="@$SOURCE_DATE_EPOCH" -cf - |
        tar -C "$stage" -xf -
    cp "$TOWNSHIP_SOURCES" "$stage/SOURCES"
    pack "${stage##*/}" "$dist/${stage##*/}-source.tar.gz"
}

# What was built, and the notices, beside the sources. The packages for Python and Rust name their build.
add_built() {
    sh packaging/program.sh "$object" "$stage/township"
    sh packaging/glibc.sh "$stage/township" "$PROGRAM_GLIBC" > "$work/program_glibc"
    sh packaging/glibc.sh lib/libtownship.so "$LIBRARY_GLIBC" > "$work/library_glibc"
    cp -a lib "$stage/lib"
    strip --strip-unneeded --remove-section=.comment "$stage/lib/libtownship.so.$version"
    sh packaging/marked.sh "$stage/lib/libtownship.so.$version"
    sed -i "s/^__version__ = .*/__version__ = \"$(sh packaging/version.sh --python)\"/" \
        "$stage/bindings/python/src/township/_version.py"
    sed -i "s/^version = .*/version = \"$build\"/" "$stage/bindings/rust/Cargo.toml"
    "$python" packaging/notices.py > "$stage/NOTICES"
    # Debian's tools keep the time of a file that is older than the commit.
    find "$stage" -exec touch -h -d "@$SOURCE_DATE_EPOCH" {} +
}

make_debian() {
    cp -a "$stage" "$work/debian"
    cp -a "$stage/packaging/debian" "$work/debian/debian"
    sh packaging/debian_changelog.sh > "$work/debian/debian/changelog"
    "$python" packaging/notices.py --debian > "$work/debian/debian/copyright"
    # The source package has no program and no library: the kit builds them.
    cp -a "$work/debian" "$work/source"
    rm -rf "$work/source/township" "$work/source/lib" "$work/source/NOTICES"
    find "$work/source" "$work/debian" -exec touch -h -d "@$SOURCE_DATE_EPOCH" {} +
    cp -a "$work/debian" "$work/servers"
    (cd "$work" && dpkg-source -Zgzip -b source)
    mv "$work"/township_*.dsc "$work"/township_*.tar.gz "$dist"
    (cd "$work/debian" && dpkg-buildpackage -b -us -uc)
    mv "$work"/*.deb "$dist"
}

# The servers of other Debians whose images are here, or can be made here.
servers_here() {
    for server in $(sh packaging/server.sh --list); do
        if sh packaging/server.sh --tools "$server" > "$work/tools.$server" 2> "$work/errors"; then
            echo "$server"
        else
            echo "left out: the package for PostgreSQL $server: $(tail -n 1 "$work/errors")" >&2
            rm "$work/tools.$server"
        fi
    done
}

make_archive() {
    mkdir -p "$binary/share/doc/township"
    make -C "$stage" install-built install-lib DESTDIR="$binary" PREFIX=
    sed -i 's|^prefix=.*|prefix=${pcfiledir}/../..|' "$binary/lib/pkgconfig/township.pc"
    cp "$stage"/*.md "$stage/LICENSE" "$stage/NOTICES" "$binary/share/doc/township"
    cp -R "$stage/docs" "$stage/examples" "$stage/samples" "$binary/share/doc/township"
    pack "${binary##*/}" "$dist/${binary##*/}.tar.gz"
}

make_wheel() {
    cp "$stage/LICENSE" "$stage/NOTICES" "$stage/bindings/python"
    mkdir "$stage/bindings/python/src/township/docs"
    cp "$stage"/docs/*.md "$stage"/[A-Z]*.md "$stage/bindings/python/src/township/docs"
    cp -R "$stage/examples" "$stage/samples" "$stage/bindings/python/src/township"
    (cd "$stage/bindings/python" && "$python" -m build --wheel --no-isolation --outdir "$dist" \
        --config-setting=--build-option=--plat-name="$WHEEL_TAG")
}

make_crate() {
    sh "$stage/packaging/crate.sh" "$work/crate"
    mkdir "$work/crate/lib"
    cp "$stage/LICENSE" "$stage/NOTICES" "$work/crate"
    cp "$stage/lib/libtownship.a" "$work/crate/lib"
    (
        cd "$work/crate"
        cargo --config 'source.crates-io.replace-with="debian"' --config "source.debian.directory=\"$REGISTRY\"" \
            package --offline --allow-dirty --no-verify --target-dir "$work/target"
    )
    cp "$work"/target/package/*.crate "$dist"
}

rm -rf "$dist"
mkdir -p "$dist"
step 'the sources' copy_sources
step 'the object file of the program' sh packaging/object.sh
step 'the program and the library' add_built
step 'the Debian packages' make_debian
echo 'the images of other Debians, which take minutes to make the first time'
for server in $(servers_here); do
    step "the package for PostgreSQL $server" sh packaging/server.sh "$server" "$work/servers" "$dist"
done
step 'the archive for Linux' make_archive
step 'the wheel' make_wheel
step 'the crate' make_crate
step 'the bill of materials' sh -c '"$1" packaging/sbom.py "$2" > "$3" && mv "$3" "$2"' sh "$python" "$dist" \
    "$work/township-$build.spdx.json"
{
    sh packaging/buildinfo.sh "$(cat "$work/program_glibc")" "$(cat "$work/library_glibc")"
    for tools in "$work"/tools.*; do if [ -e "$tools" ]; then printf '\nMade on ' && cat "$tools"; fi; done
} > "$dist/BUILDINFO"
(cd "$dist" && sha256sum -- * > "$work/sums" && mv "$work/sums" SHA256SUMS)
ls -l "$dist" | sed -n 's/^[^ ]* *[^ ]* *[^ ]* *[^ ]* *\([0-9]*\) .* \([^ ]*\)$/\1 \2/p'
