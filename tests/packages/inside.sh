#!/bin/sh
# Runs a test, tests/packages/NAME.sh, in an image, without changing the image, and without a network but its own
# computer. The third word is the folder with the packages.
#
#     sh tests/packages/inside.sh bare program dist
#
# TOWNSHIP_EARLIER can name a folder with the packages of an earlier release, from which those in dist are upgraded.
# Otherwise, an earlier version of them is made up.
set -eu
root=$(readlink -f "$(dirname "$0")/../..")
image=$(sh "$root/tests/packages/image.sh" "$1")
test=$2
dist=$(readlink -f "$3")
room=$(mktemp -d)
trap 'rm -rf --one-file-system "$room"' EXIT
if [ -n "${TOWNSHIP_EARLIER:-}" ]; then
    earlier=$(readlink -f "$TOWNSHIP_EARLIER")
else
    earlier=$room/earlier
    sh "$root/tests/packages/earlier.sh" "$dist" "$earlier"
fi
# The rows of the program's tests, as any Python can read them.
python=$(sh "$root/tools/python_with.sh" tomllib)
"$python" -B "$root/tests/program/rows.py" > "$room/rows.json"

# In a namespace of its own, so that all mounts are gone when it ends. The test's changes to the image are kept in
# memory, or if that can't be done, the test gets a copy of the image.
unshare --mount --net --pid --ipc --uts --fork sh -eu -c '
    image=$1 test=$2 dist=$3 room=$4 source=$5 earlier=$6
    ip link set lo up
    mkdir "$room/changes" "$room/root"
    mount -t tmpfs -o mode=755 tmpfs "$room/changes"
    mkdir "$room/changes/upper" "$room/changes/work"
    layers=lowerdir=$image,upperdir=$room/changes/upper,workdir=$room/changes/work
    mount -t overlay -o "$layers" overlay "$room/root" 2> /dev/null || cp -a "$image/." "$room/root"
    for folder in dist source earlier; do mkdir -p "$room/root/given/$folder"; done
    mount --bind -o ro "$dist" "$room/root/given/dist"
    mount --bind -o ro "$source" "$room/root/given/source"
    mount --bind -o ro "$earlier" "$room/root/given/earlier"
    cp "$room/rows.json" "$room/root/given/rows.json"
    mount -t proc proc "$room/root/proc"
    mount -t devpts -o newinstance,ptmxmode=0666 devpts "$room/root/dev/pts"
    ln -sf pts/ptmx "$room/root/dev/ptmx"
    packages=/given/source/tests/packages
    exec chroot "$room/root" /usr/bin/env -i HOME=/root LC_ALL=C.UTF-8 \
        PATH=/usr/local/sbin:/usr/local/bin:/usr/sbin:/usr/bin:/sbin:/bin \
        sh -c ". $packages/check.sh; . $packages/$test.sh; ended"
' sh "$image" "$test" "$dist" "$room" "$root" "$earlier"
