#!/bin/sh
# Proves the library for C and builds it in lib/: libtownship.a, libtownship.so with its soname and links, and
# township.pc, whose prefix is the first word (/usr/local by default). With `proved` as the second word, the crates
# below twp_c are used as `rt ci` has just proved and left them, and only twp_c is proved again.
set -eu
cd "$(dirname "$0")/.."
prefix=${1:-/usr/local}
kit=$(dirname "$(rt doc)")
version=$(sh packaging/version.sh)
major=${version%%.*}
echo 'the library is proved before it is built: some minutes the first time, seconds after that.'
[ "${2:-}" = proved ] || python3 tools/prove.py twp_c
sh tools/over_proved.sh twp_c > lib.log 2>&1 || {
    cat lib.log >&2
    exit 1
}
rm -rf lib lib.log
mkdir lib
# One object of everything that is linked, in which only the library's functions are visible from outside. It is marked
# as code for x86-64-v2, so that the loader refuses it on an older processor, where it would use an unknown instruction.
ld -r -z x86-64-v2 -o lib/township.o --whole-archive crates/twp_c/out/libtwp_c.a --no-whole-archive "$kit/c/liblibc_c.a"
objcopy --wildcard --keep-global-symbol='township_*' lib/township.o
ar rcsD lib/libtownship.a lib/township.o
cc -shared -Wl,-soname,"libtownship.so.$major" -Wl,--version-script=packaging/libtownship.map \
    -Wl,-z,relro,-z,now,-z,x86-64-v2 -o "lib/libtownship.so.$version" lib/township.o
rm lib/township.o
ln -s "libtownship.so.$version" "lib/libtownship.so.$major"
ln -s "libtownship.so.$major" lib/libtownship.so
cat > lib/township.pc << END
prefix=$prefix
libdir=\${prefix}/lib
includedir=\${prefix}/include

Name: township
Description: Proved acreage of land in the United States rectangular survey
Version: $version
Libs: -L\${libdir} -ltownship
Cflags: -I\${includedir}
END
echo "lib/libtownship.a and lib/libtownship.so.$version"
