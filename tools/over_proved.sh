#!/bin/sh
# Proves and compiles a program or a static library over the crates below it, as `rt ci` or tools/prove.py has just
# proved and left them: `rt run` and `rt lib` would prove those that `rt ci` left once more. The result is out/NAME.o of
# a program, and out/libNAME.a of a library.
#
#     sh tools/over_proved.sh twp_c
set -eu
cd "$(dirname "$0")/.."
crate=$1
kit=$(dirname "$(rt doc)")
root=$PWD

set -- --extern "std=$kit/rlibs/std.rlib" -L "dependency=$kit/rlibs"
for below in $(sed -n "s/^$crate\( staticlib\)\{0,1\}: //p" crates.txt); do
    if [ -d "crates/$below" ]; then
        set -- "$@" --extern "$below=$root/crates/$below/out/rlib/$below.rlib"
    else
        set -- "$@" --extern "$below=$kit/rlibs/$below.rlib"
    fi
done
for folder in crates/*/out/rlib; do
    set -- "$@" -L "dependency=$root/$folder"
done
if [ -f "crates/$crate/src/main.rt" ]; then
    set -- src/main.rt "$@" -o "out/$crate.o"
else
    set -- src/lib.rt "$@" --crate-type staticlib -o "out/lib$crate.a"
fi
mkdir -p "crates/$crate/out"
cd "crates/$crate"
"$kit/bin/rattle" build --crate-name "$crate" "$@" --links "$crate=" \
    --antt-project "$kit/rattle/logic/antt-project.json" --logic-built "$kit/logic_built" \
    --toolchain "$kit/toolchain" --backend llvm --jobs 2
