#!/bin/sh
# Copies the Rust crate to the new folder FOLDER, with the header and the refusals that its tests read, and the samples,
# examples, and pages that its texts name:
#   sh packaging/crate.sh FOLDER
# In the repository these are where everyone looks for them, and the prover accepts no links to them.
set -eu
cd "$(dirname "$0")/.."
cp -R bindings/rust "$1"
rm -rf "$1/target" "$1/Cargo.lock"
cp -R examples include samples "$1"
mkdir "$1/docs"
cp docs/*.md "$1/docs"
cp CHANGELOG.md CONTRIBUTING.md LICENSE SECURITY.md "$1"
