#!/bin/sh
# Makes the packages, as `make dist` does, in a folder of its own, and tests them: their contents, that lintian finds
# nothing, that making them again gives the same bytes, and that they work on a machine without the proof kit. The
# program and the library must be built. A test whose tool is missing is skipped, and named in a line 'skipped: NAME';
# tools/needs.sh lists the packages to install. The last line is 'N passed, M failed'.
. "$(dirname "$0")/../lib.sh"
cd "$root" || exit 1
dist=$work/dist

missing=
for tool in dpkg-buildpackage dh dh_python3 dh_bash-completion cargo; do
    has "$tool" || missing="$missing $tool"
done
python_with 'build, setuptools, wheel' > "$work/out" || missing="$missing python3-build"
python_with tomllib > "$work/out" || missing="$missing python3"
[ -f /usr/include/postgresql/15/server/postgres.h ] || missing="$missing postgresql-server-dev-15"
ls -d /usr/share/cargo/registry/serde-[0-9]* > "$work/out" 2>&1 || missing="$missing librust-serde-dev"
if [ -n "$missing" ]; then
    skip "the packages, since these are missing:$missing"
    ended
fi

try 'the version is the same everywhere' sh packaging/version.sh --check
try 'the packages are made' sh packaging/dist.sh "$dist"
[ "$failed" = 0 ] || ended
cp "$work/out" "$work/made"
version=$(sh packaging/version.sh --debian)
build=$(sh packaging/version.sh --rust)
cat > "$work/wanted" << LIST
BUILDINFO
SHA256SUMS
libtownship-dev_${version}_amd64.deb
libtownship1_${version}_amd64.deb
postgresql-15-township_${version}_amd64.deb
python3-township_${version}_amd64.deb
township-$build-linux-x86_64.tar.gz
township-$build-source.tar.gz
township-$build.crate
township-$build.spdx.json
township-$(sh packaging/version.sh --python)-py3-none-manylinux2014_x86_64.whl
township-doc_${version}_all.deb
township_$version.dsc
township_$version.tar.gz
township_${version}_amd64.deb
LIST
for server in $(sh packaging/server.sh --list); do
    if grep -q "^left out: the package for PostgreSQL $server:" "$work/made"; then
        skip "$(grep "for PostgreSQL $server:" "$work/made")"
    else
        echo "postgresql-$server-township_${version}_amd64.deb" >> "$work/wanted"
    fi
done
LC_ALL=C sort -o "$work/wanted" "$work/wanted"
(cd "$dist" && LC_ALL=C ls) > "$work/found"
try 'the files' diff "$work/wanted" "$work/found"
try 'their checksums' sh -c 'cd "$1" && sha256sum --strict -c SHA256SUMS' sh "$dist"
begin versions sh tests/packages/versions.sh
try 'no path of the build is in them' sh packaging/unpacked.sh "$dist" "$work/unpacked" "$PWD/" "${work%.*}."
python=$(python_with argparse)
count 'the pages that the packages name' "$python" -B tests/packages/pages.py "$work/unpacked"
count 'the fields of the packages' "$python" -B tests/packages/fields.py "$work/unpacked" "$version"
count 'the bill of materials' "$python" -B tests/packages/materials.py "$dist" \
    "$work/unpacked/township-$build-linux-x86_64.tar.gz/township-$build-linux-x86_64/share/doc/township/NOTICES"

# What the packages say of themselves: the license, in the machine-readable form, and no address that is made up.
library_deb=$work/unpacked/libtownship1_${version}_amd64.deb
try 'the form of copyright' grep -x 'Format: https://www.debian.org/doc/packaging-manuals/copyright-format/1.0/' \
    "$library_deb/usr/share/doc/libtownship1/copyright"
sed 's/^$/./; s/^/ /' LICENSE > "$work/wanted"
sed -n '/^License: none-chosen$/,/^$/{ /^ /p; }' "$library_deb/usr/share/doc/libtownship1/copyright" > "$work/found"
same 'the license in copyright'
try 'the license of the wheel' grep -rqx 'License: No license has been chosen yet; all rights are reserved.' \
    "$work/unpacked" --include=METADATA
try 'the license of the crate' cmp LICENSE "$work/unpacked/township-$build.crate/township-$build/LICENSE"
try 'no field of a package has an address below .example' sh -c '! grep -r "[.]example>" "$1"/*.deb/DEBIAN "$1"/*.dsc' \
    sh "$work/unpacked"

# The source package: that it unpacks, and its tests for autopkgtest, which are run in the images.
try 'the source package' dpkg-source --no-check -x "$dist/township_$version.dsc" "$work/sources"
try 'its tests' grep -x 'Testsuite: autopkgtest' "$dist/township_$version.dsc"
for test in $(sed -n 's/^Tests: //p' packaging/debian/tests/control | tr -d ,); do
    try "its test $test" test -x "$work/sources/debian/tests/$test"
done
try 'no built file is in it' test ! -e "$work/sources/township" -a ! -e "$work/sources/lib"

# The service is there, and nothing starts it.
unit=$(find "$work/unpacked/python3-township_${version}_amd64.deb" -name township.service)
try 'the unit' cmp "$unit" packaging/debian/python3-township.township.service
try 'no script starts it' sh -c '! grep -rE "deb-systemd-invoke .*(start|enable)" "$1" | grep -v try-restart' \
    sh "$work/unpacked/python3-township_${version}_amd64.deb/DEBIAN"
if has lintian; then
    try 'lintian' lintian --fail-on error,warning --allow-root "$dist"/*.deb
else
    skip lintian
fi
if has abidiff; then
    try 'the library still works for programs of the last release' sh packaging/abi.sh
else
    skip 'the comparison with the library of the last release: no abidiff'
fi
# On a processor without SSE4, as it was before x86-64-v2: a message, and no illegal instruction.
older='qemu-x86_64-static -cpu qemu64'
if has qemu-x86_64-static; then
    program=$work/unpacked/township_${version}_amd64.deb/usr/bin/township
    library=$work/unpacked/libtownship1_${version}_amd64.deb/usr/lib/x86_64-linux-gnu/libtownship.so.1
    try 'the program on an older processor' sh -c '$1 "$2" --help > "$3" 2>&1; [ $? = 127 ] && grep x86-64-v2 "$3"' \
        sh "$older" "$program" "$work/message"
    try 'the library on an older processor' sh -c '$1 -E LD_PRELOAD="$2" /bin/true 2>&1 | grep "CPU ISA level is lower"' \
        sh "$older" "$library"
else
    skip 'an older processor: no qemu-x86_64-static'
fi
try 'making them again gives the same bytes' sh packaging/reproducible.sh "$dist"

begin images sh tests/packages/run.sh "$dist"
gather
ended
