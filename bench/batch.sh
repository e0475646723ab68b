#!/bin/sh
# Prints how many records a second `python3 -m township batch` answers, from CSV to CSV, and the most memory that a
# process of it takes: in one process and in as many as there are processors, for a list and for one ten times as long,
# which takes ten times as long and no more memory. The first word is the number of records of the longer list, by
# default 1,000,000; PYTHON names another Python. It uses lib/libtownship.so. The rates are those of an idle machine.
set -eu
cd "$(dirname "$0")/.."
work=$(mktemp -d)
trap 'rm -rf "$work"' EXIT
export TOWNSHIP_LIBRARY="$PWD/lib/libtownship.so" PYTHONPATH="$PWD/bindings/python/src:$PWD/examples"
export PYTHONDONTWRITEBYTECODE=1
python=${PYTHON:-python3}
longer=${1:-1000000}

"$python" - "$work" "$longer" << 'END'
import csv
import sys

import made_up

folder, count = sys.argv[1], int(sys.argv[2])
for name, records in (("short", count // 10), ("long", count)):
    with open(f"{folder}/{name}.csv", "w", newline="") as file:
        rows = csv.writer(file, lineterminator="\n")
        rows.writerow(["id", "description", "county"])
        rows.writerows([number, text, "Lane"] for number, text in enumerate(made_up.descriptions(1, records)))
END

for jobs in 1 "$(nproc)"; do
    for list in short long; do
        "$python" - "$jobs" "$work/$list.csv" "$work/answers.csv" << 'END'
import resource
import subprocess
import sys
import time

jobs, listed, answers = sys.argv[1:]
words = [sys.executable, "-m", "township", "batch", "samples/b1.csv", listed, "--output", answers, "--jobs", jobs]
begun = time.perf_counter()
status = subprocess.run(words).returncode
taken = time.perf_counter() - begun
with open(listed, "rb") as file:
    count = sum(1 for _ in file) - 1
if status not in (0, 1):
    sys.exit(f"the batch ended with status {status}")
memory = resource.getrusage(resource.RUSAGE_CHILDREN).ru_maxrss / 1024
print(f"{jobs} processes, {count:9,} records: {count / taken:9,.0f} a second, {memory:4.0f} MiB")
END
    done
done
