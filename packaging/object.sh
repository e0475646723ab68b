#!/bin/sh
# Makes sure that crates/twp_cmd/out/twp_cmd.o is the object file of the program beside it: `rt ci` leaves no object file
# if it takes the program from an earlier run. If there is none, or it belongs to another program, compiles the program
# over the proved crates.
set -eu
cd "$(dirname "$0")/.."
program=crates/twp_cmd/out/twp_cmd
kit=$(dirname "$(rt doc)")
work=$(mktemp -d)
trap 'rm -rf "$work"' EXIT

# Whether an object file, linked as the kit links it, makes the program.
makes_program() {
    [ -f "$program.o" ] || return 1
    [ -f "$program" ] || return 0
    "$kit/bin/rattle-link" --target x86_64-unknown-linux-gnu --toolchain "$kit/toolchain" -o "$work/program" \
        "$program.o" "$kit/c/libos_c.a" "$kit/c/liblibc_c.a" && cmp "$work/program" "$program"
}
if ! makes_program; then
    sh tools/over_proved.sh twp_cmd
fi
