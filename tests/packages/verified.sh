# What `release.sh --verify` accepts and runs, in the repository of versions.sh, which includes this file at the commit of a
# release. Making the packages, and the tests in images, are replaced with scripts that say how they were called; the
# packages are empty.
ran=$work/ran
empty_deb() {
    mkdir -p "$work/empty/DEBIAN"
    printf 'Package: %s\nVersion: %s\nArchitecture: amd64\nMaintainer: nobody\nDescription: empty\n' "$1" "$2" \
        > "$work/empty/DEBIAN/control"
    dpkg-deb -b "$work/empty" "$3" > "$work/lost"
}
# The packages of an earlier release.
packages_of() {
    rm -rf "$work/packages"
    mkdir "$work/packages"
    empty_deb township "$1" "$work/packages"
    (cd "$work/packages" && sha256sum -- *.deb > SHA256SUMS)
}
mkdir -p tests/packages
printf '/Makefile\n/tests/\n/dist/\n' >> .git/info/exclude
cat > Makefile << 'END'
.PHONY: dist
dist:
	@rm -rf dist; mkdir dist; cd dist; for server in `sh ../packaging/server.sh --list`; do \
	touch postgresql-$$server-township_`sh ../packaging/version.sh`_amd64.deb; done
END
cat > tests/packages/inside.sh << 'END'
echo "$1 $2 $3 ${TOWNSHIP_EARLIER:-}" >> "$RAN"
[ "$1 $2" != "${FAILS:-}" ]
END
export RAN="$ran"

# It refuses a release, says why, and runs no test.
refuses() {
    release=$1 why=$2
    shift 2
    rm -f "$ran"
    if sh packaging/release.sh --verify "$@" > "$work/found" 2>&1; then echo 'status 0' >> "$work/found"; fi
    try "it refuses $release" sh -c 'grep "$1" "$2" && ! grep -x "status 0" "$2" && [ ! -e "$3" ]' sh "$why" "$work/found" "$ran"
}
# It verifies a release, with each test that upgrades packages, from those in a folder.
verifies() {
    release=$1 from=$2
    shift 2
    : > "$ran"
    try "it verifies $release" sh packaging/release.sh --verify "$@"
    for test in 'bare program' 'bare python' 'tools library' 'database postgresql' 'server13 postgresql' \
        'server17 postgresql' 'server18 postgresql'; do
        echo "$test dist $from"
    done > "$work/wanted"
    cp "$ran" "$work/found"
    same "the tests of $release"
}

verifies 'the first release' ''
try 'a test that fails is a failure' env FAILS='tools library' sh -c '! sh packaging/release.sh --verify'
packages_of 0.9.0
verifies 'a release after another' "$work/packages" "$work/packages"
refuses 'a folder that is missing' 'no folder' "$work/nothing"
refuses 'a folder without packages' 'no folder' "$work/empty"
echo more >> "$work/packages/township_0.9.0_amd64.deb"
refuses 'packages that were changed' 'no folder' "$work/packages"
packages_of "$version"
refuses 'its own packages as earlier ones' 'is not before' "$work/packages"
sed -i.kept 's/for server in .*; do/for server in 13 17; do/' Makefile
refuses 'packages without one for a server' 'no package for PostgreSQL 18'
mv Makefile.kept Makefile
echo >> CHANGELOG.md
refuses 'sources that were changed' 'not the commit with the tag'
git checkout -q CHANGELOG.md
