#!/bin/sh
# Counts the instructions that a reading takes: what callgrind counts within readings_of, when `twp_trials readings`
# reads a line. Reading and printing the lines isn't counted. First seven texts, each as the mean of ten lines, since
# the allocator takes more for the first; then the mean of each set of descriptions in tests/descriptions; then 65,536
# bytes of one thing, the instructions for each byte, and the most memory in KiB. The counts are compared with
# bench/expected-readings: the status is 1 if one is more than 1.02 times the expected one, or if memory is more than 8
# MiB. `--write` writes the file.
set -eu
cd "$(dirname "$0")/.."
program=crates/twp_trials/out/twp_trials
[ -x "$program" ] || (cd crates/twp_trials && rt run -- readings < /dev/null > /dev/null)
work=$(mktemp -d)
trap 'rm -rf "$work"' EXIT
# The C library clears and copies by wide stores, so that each instruction counts once.
once=glibc.cpu.x86_rep_stosb_threshold=1000000:glibc.cpu.x86_rep_movsb_threshold=1000000
# The instructions of each line of a file, on average.
count() {
    env -i PATH="$PATH" GLIBC_TUNABLES="$once" valgrind --tool=callgrind --callgrind-out-file=/dev/null \
        --toggle-collect=twp_trials::readings::read_text "$program" readings < "$1" 2>&1 >/dev/null |
        sed -n 's/.*Collected : *//p' > "$work/count"
    echo $(($(cat "$work/count") / $(wc -l < "$1")))
}
# The program is started by a small one: what starts it counts as its memory until then.
cat > "$work/memory.c" <<'C'
#include <stdio.h>
#include <sys/resource.h>
#include <sys/wait.h>
#include <unistd.h>
int main(int count, char **words)
{
    struct rusage used;
    pid_t child = vfork();
    if (child == 0) {
        execv(words[1], words + 1);
        _exit(1);
    }
    wait4(child, NULL, 0, &used);
    fprintf(stderr, "%ld\n", used.ru_maxrss);
    return 0;
}
C
"${CC:-cc}" -O2 -o "$work/memory" "$work/memory.c"
memory() {
    env -i "$work/memory" "$program" readings < "$1" 2>&1 > /dev/null
}
: > "$work/counts"
while IFS= read -r text; do
    for _ in 1 2 3 4 5 6 7 8 9 10; do printf '%s\n' "$text"; done > "$work/text"
    printf '%s\t%s\n' "$(count "$work/text")" "$text" >> "$work/counts"
done <<'TEXTS'
sec. 14, NE1/4.
Sec 14: N/2
NENE, S2NE4 Sec 14-2N-3W
08 0020N 0030W 014 ALIQ NENE,S2NE;
T. 2 N., R. 3 W., Boise Meridian, Idaho\nSec. 14: NE¼
Section 14: The South Half of the Northeast Quarter (S½NE¼)
Sec. 14: W2 less the NENW
TEXTS
for set in written practice landman recorder clerk paralegal analyst examiner abstractor counsel advisor; do
    sed 1d "tests/descriptions/$set.tsv" | cut -f 4 > "$work/set"
    printf '%s\tthe mean of %s.tsv, %s bytes\n' "$(count "$work/set")" "$set" \
        "$(($(wc -c < "$work/set") / $(wc -l < "$work/set") - 1))" >> "$work/counts"
done
for part in NE '(' -; do
    awk -v part="$part" 'BEGIN { while (length(text) + length(part) <= 65536) text = text part; print text }' \
        > "$work/large"
    printf '%s\t65,536 bytes of %s, each byte\n' "$(($(count "$work/large") / 65536))" "$part" >> "$work/counts"
    printf '%s\t65,536 bytes of %s, KiB of memory\n' "$(memory "$work/large")" "$part" >> "$work/counts"
done
if [ "${1-}" = --write ]; then
    cp "$work/counts" bench/expected-readings
fi
awk -F '\t' 'NR == FNR { expected[$2] = $1; next }
    { over = $2 ~ /KiB/ ? $1 > 8192 : $1 > 1.02 * expected[$2]; bad += over
      printf "%10d %10d  %s%s\n", $1, expected[$2], $2, over ? "  MORE" : "" }
    END { exit bad > 0 }' bench/expected-readings "$work/counts"
