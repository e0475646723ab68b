#!/bin/sh
# Runs the tests, the examples, and the lints of the Rust crate against lib/libtownship.a, or the library in the folder
# named by TOWNSHIP_LIB_DIR, without the network, and verifies that it can be packaged. The crate `serde` is taken from
# Debian's registry; if it is not there, its tests are skipped. TOWNSHIP_CASES can name a zip file of worked cases, for
# which Python is needed (PYTHON can name another). Compiled files go to CARGO_TARGET_DIR, or to a folder that is
# removed. The last line is 'N passed, M skipped', with the names of those that were skipped.
set -eu
root=$(readlink -f "$(dirname "$0")/../..")
folder=${TOWNSHIP_LIB_DIR:-$root/lib}
if [ ! -f "$folder/libtownship.a" ]; then
    echo "there is no $folder/libtownship.a; 'make lib' builds the library" >&2
    exit 1
fi
TOWNSHIP_LIB_DIR=$(readlink -f "$folder")
export TOWNSHIP_LIB_DIR
work=$(mktemp -d)
trap 'rm -rf "$work"' EXIT
CARGO_TARGET_DIR=$(readlink -m "${CARGO_TARGET_DIR:-$work/target}")
export CARGO_TARGET_DIR
ignored=
if [ -n "${TOWNSHIP_CASES:-}" ]; then
    if [ ! -f "$TOWNSHIP_CASES" ]; then
        echo "TOWNSHIP_CASES names no file: $TOWNSHIP_CASES" >&2
        exit 1
    fi
    TOWNSHIP_CASE_RECORDS=$work/records
    export TOWNSHIP_CASE_RECORDS
    "${PYTHON:-python3}" "$root/tests/library/c/case_records.py" "$TOWNSHIP_CASES" > "$TOWNSHIP_CASE_RECORDS"
    ignored=--include-ignored
fi

# Without Debian's registry, cargo cannot find `serde`, even though it is optional: then test a copy that lacks it.
registry=/usr/share/cargo/registry
if ls -d "$registry/serde-"[0-9]* "$registry/serde_json-"[0-9]* > "$work/lost" 2>&1; then
    mkdir "$work/.cargo"
    cat > "$work/.cargo/config.toml" << END
[source.crates-io]
replace-with = "debian"
[source.debian]
directory = "$registry"
END
    features=--all-features
else
    features=
fi
# Cargo reads the registry's place in a folder above the crate, and makes no lock file in the repository.
mkdir "$work/crates"
sh "$root/packaging/crate.sh" "$work/crates/township"
cd "$work/crates/township"
[ -n "$features" ] ||
    sed -i -e 's/^serde = \["dep:serde"\]$/serde = []/' -e '/^serde = {/d' -e '/^serde_json = /d' Cargo.toml

# Counts a command as one test.
status=0
one() {
    what=$1
    shift
    if "$@"; then
        echo 'test result: ok. 1 passed; 0 failed; 0 ignored'
    else
        status=1
        echo "FAILED: $what" >&2
        echo 'test result: FAILED. 0 passed; 1 failed; 0 ignored'
    fi >> "$work/results"
}
skip() {
    echo "test $1 ... ignored, $2" >> "$work/results"
    echo 'test result: ok. 0 passed; 0 failed; 1 ignored' >> "$work/results"
}

if cargo clippy --version > "$work/lost" 2>&1; then
    one clippy cargo clippy --offline --all-targets $features -- -D warnings 1>&2
else
    skip clippy 'it is not installed'
fi
if cargo fmt --version > "$work/lost" 2>&1; then
    one fmt cargo fmt --check 1>&2
else
    skip fmt 'it is not installed'
fi
one doc env RUSTDOCFLAGS='-D warnings' cargo doc --offline --no-deps $features 1>&2
if [ -n "$features" ]; then
    # The package is unpacked and built as it would be elsewhere.
    one package cargo package --offline --allow-dirty 1>&2
else
    skip serde 'it is not in the registry'
    skip package 'serde is not in the registry'
fi

# The library can be a shared one that pkg-config finds.
by_pkg_config() {
    env -u TOWNSHIP_LIB_DIR PKG_CONFIG_PATH="$work/installed" LD_LIBRARY_PATH="$work/installed" \
        cargo test --offline $features --test plat >&2
}
if [ ! -f "$TOWNSHIP_LIB_DIR/libtownship.so" ]; then
    skip pkg-config 'there is no shared library'
elif ! pkg-config --version > "$work/lost" 2>&1; then
    skip pkg-config 'it is not installed'
else
    cp -R "$TOWNSHIP_LIB_DIR" "$work/installed"
    rm -f "$work/installed/libtownship.a"
    sed "s|^libdir=.*|libdir=$work/installed|" "$TOWNSHIP_LIB_DIR/township.pc" > "$work/installed/township.pc"
    one pkg-config by_pkg_config
fi

# Without a library, the types can be checked, and a build says what to do.
without_library() {
    env -u TOWNSHIP_LIB_DIR PKG_CONFIG=false cargo check --offline $features || return 1
    if env -u TOWNSHIP_LIB_DIR PKG_CONFIG=false cargo build --offline $features --tests > "$work/told" 2>&1; then
        return 1
    fi
    grep -q '`make lib` in the repository builds them' "$work/told"
}
one 'without the library' without_library

# As it is in the repository, the crate reads the samples and the header two folders above it.
in_repository() {
    mkdir -p "$work/repository/bindings" && cp -R "$root/bindings/rust" "$work/repository/bindings/rust" || return 1
    rm -rf "$work/repository/bindings/rust/target" "$work/repository/bindings/rust/Cargo.lock"
    for folder in docs include samples; do ln -s "$root/$folder" "$work/repository/$folder" || return 1; done
    cd "$work/repository/bindings/rust" || return 1
    [ -n "$features" ] || cp "$work/crates/township/Cargo.toml" .
    cargo test --offline --all-targets $features >&2
}
in_repository_alone() { (in_repository); }
one 'in the repository' in_repository_alone

cargo test --offline --no-fail-fast $features -- $ignored > "$work/tests" 2>&1 || status=$?
cat "$work/tests"
# A test that does not compile has no result of its own, and counts as one failure.
cat "$work/results" "$work/tests" | awk -v status="$status" '
/^test result: / { passed += $4; failed += $6; skipped += $8 }
/^test .* \.\.\. ignored/ { names = names (names == "" ? "" : ", ") $2 }
END {
    if (status != 0 && failed == 0) failed = 1
    printf "%d passed, ", passed
    if (failed) printf "%d failed, ", failed
    printf "%d skipped%s\n", skipped, names == "" ? "" : " (" names ")"
}'
exit "$status"
