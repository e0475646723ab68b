#!/bin/sh
# Prints counts of what is proved, read from the sources: crates, the clauses of contracts that say what a function
# returns, definitions, proofs, and wrong bodies that the prover refuses.
set -eu
cd "$(dirname "$0")/.."
files() { sh packaging/sources.sh --files | tr '\000' '\n' | grep -x "crates/[^/]*/$1"; }
crates() { files "$1" | xargs cat; }
echo "$(grep -c '^twp_[a-z_]*\( [a-z]*\)*:' crates.txt) crates"
echo "$(crates 'src/.*[.]rt' | grep -c '^ *ensures') clauses of contracts that say what a function returns"
echo "$(crates 'specs/.*[.]antt' | wc -l) lines of definitions"
echo "$(crates 'proofs/.*[.]antt' | wc -l) lines of proofs"
echo "$(files 'must-fail/.*[.]edit' | wc -l) wrong bodies that must be refused, and \
$(files 'must-fail-release/.*[.]edit' | wc -l) more before a release"
