#!/bin/sh
# Prints BUILDINFO: the sources of the packages, and the tools that made them. The words are the lowest versions of glibc
# that the program and the library need.
set -eu
cd "$(dirname "$0")/.."
program_glibc=$1
library_glibc=$2
kit=$(dirname "$(rt doc)")

package() { dpkg-query -W -f "$1 "'${Version}\n' "$1" 2> /dev/null || echo "$1 is not a Debian package here"; }

changes=
[ "$(sh packaging/sources.sh --state)" != changed ] || changes=', with changes that are not committed'
echo "version: $(sh packaging/version.sh --debian)"
echo "commit: $(sh packaging/sources.sh --commit)$changes"
echo "date of the commit: $(date -u -d "@$(sh packaging/sources.sh --date)" '+%Y-%m-%d %H:%M:%S UTC')"
echo "processor: x86-64-v2"
echo "lowest glibc: $program_glibc for the program, $library_glibc for the library"
echo
echo "Proved with $(rt version)"
sed '1d; s/^/    /' "$kit/KIT-ID"
echo
echo 'Proved, counted in the sources:'
sh packaging/counts.sh | sed 's/^/    /'
echo
echo 'Made on Debian with:'
for name in gcc binutils libc6-dev dpkg-dev debhelper dh-python bash-completion python3 python3-build python3-setuptools \
    python3-wheel postgresql-server-dev-15 tar gzip; do
    package "$name"
done | sed 's/^/    /'
echo "    $(cargo --version)"
