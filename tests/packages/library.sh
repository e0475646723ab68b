# The packages of the library: programs in C and C++ are compiled with them, and run.
cd /given/source || exit 1
files > "$work/before"
upgrades '' libtownship1 libtownship-dev township-doc
version=$(sh packaging/version.sh)
try 'the library names its build' grep -a -o "\"version\":\"$(dpkg-query -W -f '${Version}' libtownship1)\"" \
    /usr/lib/x86_64-linux-gnu/libtownship.so.1
flags="$(pkg-config --cflags --libs township)"
prints 'pkg-config' "$version
status 0" pkg-config --modversion township
tests=
for part in check given area designations land lists lots lot_lands lot_lists lot_readings many explanations readings split \
    threads; do
    tests="$tests tests/library/c/$part.c"
done
try 'a C program compiles' cc -std=c11 -o "$work/shared" tests/library/c/township_test.c $tests $flags -pthread
try 'it uses the shared library' sh -c 'ldd "$1" | grep -q "libtownship.so.1 => /"' sh "$work/shared"
count 'the C test' "$work/shared" samples "$version" 5
try 'a C program compiles with the static library' cc -std=c11 -o "$work/static" tests/library/c/township_test.c $tests \
    -l:libtownship.a -pthread
count 'the C test with the static library' "$work/static" samples "$version" 5
try 'a static C program compiles' cc -std=c11 -static -o "$work/alone" tests/library/c/township_test.c $tests \
    -l:libtownship.a -pthread
count 'the C test as a static program' "$work/alone" samples "$version" 5
try 'a C++ program compiles' c++ -std=c++11 -o "$work/cpp" tests/library/c/township_test.cc $flags
count 'the C++ test' "$work/cpp" samples/b1.csv

try 'its test for autopkgtest' env AUTOPKGTEST_TMP="$work" sh /given/source/packaging/debian/tests/library

# A program is refused by a library that lacks the version of a function that it was linked with.
try 'the functions have a version' sh -c 'objdump -T "$1" | grep -q "TOWNSHIP_1.0) *township_read"' sh "$work/shared"
removes_all 'the library'

# The archive for any Linux, unpacked anywhere.
mkdir "$work/there"
tar -C "$work/there" --strip-components=1 -xf /given/dist/township-*-linux-x86_64.tar.gz
flags="$(PKG_CONFIG_PATH=$work/there/lib/pkgconfig pkg-config --cflags --libs township)"
try 'a C program compiles with the archive' cc -std=c11 -o "$work/archive" tests/library/c/township_test.c $tests $flags \
    -pthread
count 'the C test with the archive' env LD_LIBRARY_PATH="$work/there/lib" "$work/archive" samples "$version" 5
