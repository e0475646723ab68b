#!/bin/sh
# Measures the page and its JSON interface on this computer: with wrk, requests in a second, the time within which 99 in
# 100 are answered when a quarter of the connections ask, and the descriptions in a second that requests carry which
# have 1,000 of them; how many bytes a browser receives when it opens the page; and in Chromium, the time from a key to
# the new drawing, which is to be at most 150 milliseconds at the median. It needs lib/, flask, waitress, and wrk, and an
# idle computer; for the keys, also selenium. The status is 1 if `land` with its drawing is answered less than 1,000 times
# a second on 4 processors, or if the first page has more than 100,000 bytes.
set -eu
if ! command -v wrk > /dev/null; then
    echo 'skipped: the page, whose measurement needs wrk'
    exit 0
fi
root=$(readlink -f "$(dirname "$0")/..")
work=$(mktemp -d)
trap 'kill "$server" 2> "$work/lost" || :; rm -rf "$work"' EXIT
TOWNSHIP_LIBRARY=${TOWNSHIP_LIBRARY:-$root/lib/libtownship.so}
PYTHONPATH=${PYTHONPATH:-$root/bindings/python/src}
PYTHONDONTWRITEBYTECODE=1
export TOWNSHIP_LIBRARY PYTHONPATH PYTHONDONTWRITEBYTECODE
python=$(sh "$root/tools/python_with.sh" 'flask, waitress')
"$python" -m township serve --port 0 2> "$work/said" &
server=$!
until grep -q '^township: http' "$work/said"; do sleep 0.1; done
address=$(sed -n 's|^township: \(http://[^ ]*\)/ .*|\1|p' "$work/said")

# A script for wrk that posts the JSON of a file.
cat > "$work/post.lua" << END
local file = io.open("$work/body")
wrk.method = "POST"
wrk.headers["Content-Type"] = "application/json"
wrk.body = file:read("*a")
END
# Asks the route of the first word on so many connections, and prints requests a second and the 99th percentile.
ask() {
    wrk -t2 -c"$2" -d"${SECONDS_EACH:-5}s" --latency -s "$work/post.lua" "$address/api/v1/$1" |
        awk '/99%/ { late = $2 } /Requests\/sec/ { rate = $2 } /Non-2xx/ { print "errors:", $0 } END { print rate, late }'
}
land='{"township":"T. 2 N., R. 3 W.","description":"sec. 5, lots 1 and 2, S1/2NE1/4."}'
printf %s "$land" > "$work/body"
echo "land, 8 connections: $(ask land 8) (requests a second, 99th percentile)"
echo "land, 2 connections: $(ask land 2)"
printf %s "${land%\}},\"draw\":true}" > "$work/body"
drawn=$(ask land 8)
echo "land with its drawing, 8 connections: $drawn"
echo "land with its drawing, 2 connections: $(ask land 2)"
"$python" -c 'import json
print(json.dumps({"township": "T. 2 N., R. 3 W.", "descriptions": ["sec. 5, lots 1 and 2, S1/2NE1/4."] * 1000}))' > "$work/body"
ask batch 4 | awk '{ printf "batch, 4 connections: %d descriptions a second, 99th percentile %s\n", 1000 * $1, $2 }'
first=$("$python" "$root/bench/first_page.py" "$address")
echo "the first page: $first bytes"

status=0
if [ "${drawn%%.*}" -lt $((250 * $(nproc))) ]; then
    echo 'land with its drawing: less than 250 requests a second for each processor' >&2
    status=1
fi
if [ "$first" -gt 100000 ]; then
    echo 'the first page: more than 100,000 bytes' >&2
    status=1
fi
if typist=$(sh "$root/tools/python_with.sh" 'flask, waitress, selenium'); then
    "$typist" "$root/bench/keys.py" "$address/" || status=1
else
    echo 'key to new drawing: not measured, since no Python has selenium'
fi
exit $status
