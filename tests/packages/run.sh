#!/bin/sh
# Tests the packages in a folder as their users would: on a minimal Debian, without the proof kit. It must be run by
# root, and the first run makes the images, which takes some minutes and needs Debian's archive. If one cannot be made
# here, its tests are skipped, and a line 'skipped: ..' says so. The last line is 'N passed, M failed'.
#
#     sh tests/packages/run.sh dist
. "$(dirname "$0")/../lib.sh"
dist=$(readlink -f "$1")
here=$root/tests/packages

skip_all() {
    skip "the packages on a minimal Debian: $1"
    ended
}
[ "$(id -u)" = 0 ] || skip_all 'only root can make one'
has debootstrap || skip_all 'there is no debootstrap here'
has ip || skip_all 'there is no ip here'
unshare --mount --net --pid --fork true 2> "$work/lost" || skip_all 'no namespaces can be made here'

# Each image, and the tests that are run in it.
rows='
    bare     program python
    database postgresql
    tools    library
    rust     rust
    older    program python
    newer    program python
    next     program python
    testbed  autopkgtest
    server13 server postgresql
    server17 server postgresql
    server18 server postgresql
    servers  moved
'
# The version before, from which each test upgrades.
if [ -z "${TOWNSHIP_EARLIER:-}" ]; then
    TOWNSHIP_EARLIER=$work/earlier
    export TOWNSHIP_EARLIER
    try 'an earlier version' sh "$here/earlier.sh" "$dist" "$TOWNSHIP_EARLIER"
fi
images=$(echo "$rows" | sed -n 's/^ *\([a-z][a-z0-9]*\) .*/\1/p')
for image in $images; do
    sh "$here/image.sh" "$image" > "$work/lost" 2> "$work/errors" || {
        skip "the packages on the image $image, which can't be made here: $(tail -n 1 "$work/errors")"
        continue
    }
    for test in $(echo "$rows" | sed -n "s/^ *$image  *//p"); do
        begin "$image.$test" sh "$here/inside.sh" "$image" "$test" "$dist"
    done
done
gather
ended
