# The tests of the source package for autopkgtest, which installs the packages by what the tests say that they depend on.
# There is no network, so Debian's archive must not be asked.
: > /etc/apt/sources.list
try 'autopkgtest' autopkgtest --output-dir="$work/tests" /given/dist/*.deb /given/dist/township_*.dsc -- null
sed -n 's/^Tests: //p' /given/source/packaging/debian/tests/control | tr -d ',' | tr ' ' '\n' | sort > "$work/wanted"
sed -n 's/^\([a-z]*\) *\(PASS\|SUPERFICIAL\|PASS .*\)$/\1/p' "$work/tests/summary" | sort > "$work/found"
same 'each test passes'
