#!/bin/sh
# Compares the documents with the other files of the repository: the man page, the names and numbers of refusals, the
# names of modules and of files, the counts of instructions, and docs/TRUST.md. It needs no program, and takes seconds;
# documents.sh beside it runs the examples, and tools/repeated compares names in the code, and other counts. The last
# line is 'N passed, 0 failed'.
. "$(dirname "$0")/../lib.sh"
cd "$work" || exit 1
docs=$root/docs

# Two sorted lists, `wanted` and `found`, must be the same; only what one of them lacks is shown.
same_lines() {
    diff wanted found | grep '^[<>]' > differences
    cp differences found
    : > wanted
    same "$1"
}

# The man page is the one that its template and docs/ make, and is well formed. It contains each refusal of
# docs/REFUSALS.md once.
page=$root/man/township.1
: > wanted
sh "$root/tools/man_page.sh" --check > found 2>&1
same 'man/township.1, by tools/man_page.sh'
for each in "$root"/man/*.1; do
    name=man/${each##*/}
    if command -v mandoc > lost; then
        # The other page need not be installed here.
        mandoc -Tlint "$each" | grep -v 'referenced manual not found: Xr township 1' > found 2>&1
        same "$name, by mandoc"
    else
        skip "the form of $name, since there is no mandoc here"
    fi
    if man --version 2> lost | grep -q '^man [0-9]'; then
        MANWIDTH=80 man -l --warnings -E UTF-8 "$each" 2> found > lost
        same "$name, by man"
    else
        skip "the warnings of man on $name, since there is no man of man-db here"
    fi
done
sed -n 's/^| \([0-9][0-9]*\) | \([A-Z][A-Za-z]*\) |.*/\1 \2/p' "$docs/REFUSALS.md" > in_tables
sed -n 's/^[.]It Sy \([0-9][0-9]*\) \([A-Z][A-Za-z]*\)$/\1 \2/p' "$page" > in_page
all_read 'the refusals of man/township.1' "$(wc -l < in_tables)" "$(wc -l < in_page)"
cp in_tables wanted
cp in_page found
same 'the refusals of man/township.1'

# The tables of docs/REFUSALS.md, and that of docs/LOTS-FORMAT.md, contain the numbers and the names in the code, and no
# others.
{
    find "$root/crates" -path '*/src/*' -name '*.rt' -exec \
        sed -n 's/^ *[A-Za-z]*Fault::\([A-Za-z]*\).* => (\([0-9][0-9]*\), .*/\2 \1/p' {} +
    sed -n 's/^ *Refusal { number: \([0-9][0-9]*\), at }$/\1 Lacking/p' "$root/crates/twp_plat/src/lots/lacking.rt"
} | sort > in_code
{
    sed -n 's/^| \([0-9][0-9]*\) | \([A-Z][A-Za-z]*\) |.*/\1 \2/p' "$docs/REFUSALS.md"
    sed -n 's/^| \([0-9][0-9]*\) `\([A-Z][A-Za-z]*\)` |.*/\1 \2/p' "$docs/LOTS-FORMAT.md"
} | sort > in_tables
all_read 'the names of refusals' "$(wc -l < in_code)" "$(wc -l < in_tables)"
cp in_code wanted
cp in_tables found
same 'the numbers and names of refusals'

# docs/ARCHITECTURE.md names every crate and every module in the rows of its crate, and exactly the modules of definitions
# that there are. Every crate that has laws has them in modules of the same name.
names_in() {
    awk -v from="$1" -v to="$2" '
        /^## / { on = $0 == from || (on && $0 != to) }
        on && /^[|]/ {
            split($0, cells, "|")
            rest = cells[2] ~ /^ `twp_/ ? cells[2] cells[3] : cells[3]
            while (match(rest, /`[^`]*`/)) {
                name = substr(rest, RSTART + 1, RLENGTH - 2)
                rest = substr(rest, RSTART + RLENGTH)
                if (name ~ /^twp_/) crate = name
                else print crate ": " name
            }
        }' "$docs/ARCHITECTURE.md" | sort -u
}
module_of() {
    crate=${1#"$root"/crates/}
    name=${1##*/}
    echo "${crate%%/*}: ${name%.*}"
}
names_in '## The modules' '## Where a definition lives' > named
for file in "$root"/crates/*/src/*.rt; do module_of "$file"; done | grep -v -e ': lib$' -e ': laws$' > wanted
grep -xF -f wanted named > found
sort -u -o wanted wanted
same_lines 'the modules of docs/ARCHITECTURE.md: < is missing'
# Each module that it names exists; the rows also name types, words of descriptions, and the file stdout.
grep -vE ': ([A-Z].*|.*[.]py|and|of|stdout)$' named | while IFS=': ' read -r crate name; do
    find "$root/crates/$crate/src" -name "$name.rt" | grep -q . || echo "$crate: $name"
done > found
: > wanted
same 'modules of docs/ARCHITECTURE.md that do not exist'
names_in '## Where a definition lives' '' | grep ': [A-Z]' > found
for file in "$root"/crates/*/specs/*.antt "$root"/crates/*/specs/steps/*.antt; do module_of "$file"; done |
    grep -v -e ': Lib$' -e ': steps$' -e ': Laws$' | sort -u > wanted
grep -v ': Laws$' found > others
mv others found
same_lines 'the modules of definitions in docs/ARCHITECTURE.md: < is missing, and > is not there'
for crate in "$root"/crates/*; do
    grep -q "^| \`${crate##*/}\` |" "$docs/ARCHITECTURE.md" || echo "${crate##*/}"
done > found
: > wanted
same 'the crates of docs/ARCHITECTURE.md'

# The files that documents name exist, and so do the sections that they name, as in `PERFORMANCE.md`, "Land".
folders='docs|tools|samples|examples|tests|bench|bindings|include|completions|man'
for document in "$root"/README.md "$root"/CONTRIBUTING.md "$root"/tests/README.md "$docs"/*.md; do
    tr -s '\n ' '  ' < "$document" |
        grep -oE "\`(($folders)/[A-Za-z0-9_./-]+|[A-Z-]+[.]md)\`(, \"[^\"]+\")?" |
        sed 's/^`\([^`]*\)`\(, "\(.*\)"\)*$/\1|\3/'
done | sort -u > named
all_read 'the files that documents name' "$(wc -l < named)" "$(wc -l < named)"
while IFS='|' read -r file title; do
    path=$root/$file
    [ -e "$path" ] || path=$docs/$file
    echo 'it exists' > wanted
    if [ ! -e "$path" ]; then
        echo 'there is no such file'
    elif [ -n "$title" ] && ! grep -qxE "#+ $title" "$path"; then
        echo 'there is no such section'
    else
        echo 'it exists'
    fi > found
    same "the documents name $file${title:+, \"$title\"}"
done < named

# `make help` has a line for each target.
make -s -C "$root" help | sed 's/ .*//' | sort > found
sed -n 's/^[.]PHONY: //p' "$root/Makefile" | tr ' ' '\n' | sort > wanted
same 'the targets that make help lists'

# docs/TRUST.md is the list that its script makes of the contracts, the definitions, and those of the kit.
if ! python=$(sh "$root/tools/python_with.sh" argparse); then
    skip 'docs/TRUST.md, since there is no Python here'
elif ! command -v rt > lost; then
    skip 'docs/TRUST.md, since the Rattle kit is not here'
else
    : > wanted
    "$python" -B "$root/tools/reading_list" --check > found 2>&1
    same 'docs/TRUST.md, by tools/reading_list'
fi

# No row of a table is too long to read.
: > wanted
LC_ALL=C awk 'length > 300 { print FILENAME ": " FNR }' "$root"/README.md "$docs"/*.md > found
same 'rows of tables of 300 bytes at most'

# The ledger of promises stays short enough to be read.
find "$docs/PROMISES.md" -size +30000c > found
same 'docs/PROMISES.md has 30,000 bytes at most'

# The counts in the tables of docs/BENCHMARKS.md that have one are those of the first block of bench/expected, and
# of bench/expected-library.
sed -e '/^#/d' -e '/^$/,$d' "$root/bench/expected" > expected
sed '/^#/d' "$root/bench/expected-library" >> expected
sed -n 's/^| \([^|]*\) | \([0-9,]*\) |$/\2 \1/p' "$docs/BENCHMARKS.md" |
    awk '{ gsub(/,/, "", $1); print }' > measured
all_read 'the counts of docs/BENCHMARKS.md' "$(wc -l < expected)" "$(wc -l < measured)"
cp expected wanted
cp measured found
same 'the counts of docs/BENCHMARKS.md and of bench/expected'

# The reading that documents show is that of a docstring whose example is run.
shown() { sed -n '/^    1[.] T[.] 2 N[.].* 120[.]00 acres$/,/^ *\("""\)*$/p' "$1" | grep ' '; }
shown "$root/bindings/python/src/township/_suggest.py" | grep -v '"""' > wanted
for document in README.md docs/DESCRIPTIONS.md; do
    shown "$root/$document" > found
    [ -s found ] || echo 'no reading' > found
    same "the reading that $document shows"
done

ended
