#!/bin/sh
# Links the program once more, from the object file that was compiled when it was proved, so that it runs on older
# systems too, and writes into it which build it is. The second word names the file to write.
#
#     sh packaging/program.sh crates/twp_cmd/out/twp_cmd.o FILE
#
# As the kit links it, it needs glibc 2.34, because it calls one function in a version that was added then, and another
# function that was added in 2.33. Here it gets both from packaging/start.c.
set -eu
cd "$(dirname "$0")/.."
object=$1
program=$2
kit=$(dirname "$(rt doc)")
work=$(mktemp -d)
trap 'rm -rf "$work"' EXIT

# The kit's toolchain, with a start file that calls the function of packaging/start.c.
mkdir -p "$work/toolchain/lib"
ln -s "$kit/toolchain/bin" "$work/toolchain/bin"
for file in "$kit"/toolchain/lib/*; do
    ln -s "$file" "$work/toolchain/lib/"
done
rm "$work/toolchain/lib/Scrt1.o"
objcopy --redefine-sym __libc_start_main=township_start_main "$kit/toolchain/lib/Scrt1.o" \
    "$work/toolchain/lib/Scrt1.o"
cc -std=c11 -O2 -fPIE -fno-stack-protector -Wall -Wextra -Werror -c -o "$work/start.o" packaging/start.c
"$kit/bin/rattle-link" --target x86_64-unknown-linux-gnu --toolchain "$work/toolchain" -o "$program" "$object" \
    "$work/start.o" "$kit/c/libos_c.a" "$kit/c/liblibc_c.a" > "$work/log"
strip --strip-unneeded --remove-section=.comment "$program"
sh packaging/marked.sh "$program"
