#!/bin/sh
# Prints the changelog of the Debian packages, made from CHANGELOG.md.
# Each version there has a heading such as `## 1.0.0 (2026-11-26)`, or `(unreleased)`, and its changes are items of a list.
# The first version is that of this build, with the date of its sources. It names no pages, since not every package has
# them.
set -eu
cd "$(dirname "$0")/.."
maintainer=$(sed -n 's/^Maintainer: //p' packaging/debian/control)

# The changelog, in lines of at most 78 columns, with the date of a version as it is in the heading.
awk -v maintainer="$maintainer" -v build="$(sh packaging/version.sh --debian)" \
    -v built="@$(sh packaging/sources.sh --date)" '
    function wrap(    words, count, i, line) {
        gsub(/ [(]`docs\/[A-Z-]*[.]md`[)]/, "", item)
        count = split(item, words, " ")
        line = "  *"
        for (i = 1; i <= count; i++) {
            if (length(line " " words[i]) > 78) { print line; line = "   " }
            line = line " " words[i]
        }
        if (count > 0) print line
        item = ""
    }
    function finish() { wrap(); if (date != "") printf "\n -- %s  |%s\n\n", maintainer, date }
    /^## / {
        finish()
        date = $3
        gsub(/[()]/, "", date)
        if (date == "unreleased") date = built
        printf "township (%s) unstable; urgency=medium\n\n", version++ ? $2 : build
        next
    }
    date != "" && /^- / { wrap(); item = substr($0, 3); next }
    date != "" && /^  / { item = item " " substr($0, 3) }
    END { finish() }
' CHANGELOG.md | while IFS= read -r line; do
    case $line in
        ' -- '*'|'*) printf '%s%s\n' "${line%|*}" "$(date -u -R -d "${line##*|}")" ;;
        *) printf '%s\n' "$line" ;;
    esac
done
