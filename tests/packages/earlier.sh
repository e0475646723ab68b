#!/bin/sh
# Makes packages of an earlier version, from which the tests can upgrade when there is no earlier release: the Debian
# packages in a folder, under a lower version, each with one more file, which the upgrade has to remove.
#
#     sh tests/packages/earlier.sh dist earlier
set -eu
dist=$(readlink -f "$1")
earlier=$(readlink -m "$2")
version=0.0.1
work=$(mktemp -d)
trap 'rm -rf "$work"' EXIT
mkdir -p "$earlier"
for deb in "$dist"/*.deb; do
    name=$(dpkg-deb -f "$deb" Package)
    newer=$(dpkg-deb -f "$deb" Version)
    dpkg-deb -R "$deb" "$work/$name"
    # The packages need each other in this version, too.
    sed -i "s/^Version: .*/Version: $version/; s/(= $newer)/(= $version)/g" "$work/$name/DEBIAN/control"
    mkdir -p "$work/$name/usr/share/doc/$name"
    touch "$work/$name/usr/share/doc/$name/in-the-version-before"
    dpkg-deb -Zgzip -z1 -b "$work/$name" "$earlier" > "$work/log"
done
