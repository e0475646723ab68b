#!/bin/sh
# Names each source that is not laid out as `rt fmt` lays it out. `rt ci` refuses such a crate, but only after it has
# proved those below.
set -u
cd "$(dirname "$0")/.." || exit 1
rattle=$(dirname "$(readlink -f "$(command -v rt)")")/rattle
find crates/*/src crates/*/specs crates/*/proofs \( -name '*.rt' -o -name '*.antt' \) -print0 |
    xargs -0 "$rattle" fmt --check
