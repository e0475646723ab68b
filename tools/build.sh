#!/bin/sh
# Proves the program and the crates that it depends on, builds it, and leaves it as ./township. Shows the progress of
# the proofs; if one fails, shows everything that rt printed.
set -eu
cd "$(dirname "$0")/.."
echo 'township is proved before it is built: some minutes the first time, seconds after that.'
python3 tools/prove.py twp_cmd
cp crates/twp_cmd/out/twp_cmd township
