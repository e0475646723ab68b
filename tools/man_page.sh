#!/bin/sh
# Writes the man page, man/township.1, from its template, man/township.1.in. Parts of it come from docs/: a line of
# the template that is one of these names is replaced with
#
#     @PLACES@      what the place of a refusal is, by its number (docs/REFUSALS.md)
#     @REFUSALS@    the refusals, stage by stage: number, name, meaning, and what to do (docs/REFUSALS.md)
#     @LINES@       the drawing of the section lines and their indexes (docs/NOTES-FORMAT.md)
#
# In text shown as it is typed, characters that a typesetter would replace with nicer ones are kept.
#
# With --check it writes nothing; if the page is not what the template and docs/ make, it shows how they
# differ, and its status is 1.
set -eu
root=$(readlink -f "$(dirname "$0")/..")
work=$(mktemp -d)
trap 'rm -rf "$work"' EXIT

# Functions that the awk programs below share: they write a typed text, a cell of a table, or a sentence in mdoc.
cat > "$work/cells" <<'END'
# The text, capitalized.
function capital(text) { return toupper(substr(text, 1, 1)) substr(text, 2) }

# The text with names for the characters that would be replaced with nicer ones.
function typed(text) {
    gsub(/-/, "\\-", text)
    gsub(/\047/, "\\(aq", text)
    gsub(/`/, "\\(ga", text)
    gsub(/\^/, "\\(ha", text)
    gsub(/~/, "\\(ti", text)
    return text
}

# The text as one argument of a macro, and not as a macro or punctuation. Fractions are written by name, so that
# the page is ASCII.
function argument(text) {
    gsub(/\\/, "\\e", text)
    gsub(/"/, "\\(dq", text)
    text = typed(text)
    gsub(/½/, "\\(12", text)
    gsub(/¼/, "\\(14", text)
    if (length(text) < 4) text = "\\&" text
    if (text ~ /[.]$/) text = text "\\&"
    return text ~ / / ? "\"" text "\"" : text
}

# Lines of text. A period or an apostrophe at the beginning of a line would be taken for a macro.
function lines(text, words, count, i, line) {
    count = split(text, words, " ")
    for (i = 1; i <= count; i++) {
        if (line == "") line = (words[i] ~ /^[.\047]/ ? "\\&" : "") words[i]
        else if (length(line " " words[i]) <= 78) line = line " " words[i]
        else { print line; line = words[i] }
    }
    if (line != "") print line
}

# The section of the page for a document, or the code unchanged.
function code(text) {
    if (text == "docs/NOTES-FORMAT.md") return "Sx FIELD NOTES"
    if (text == "docs/DESCRIPTIONS.md") return "Sx DESCRIPTIONS OF LAND"
    if (text == "docs/TRACTS-FORMAT.md") return "Sx LISTS OF TRACTS"
    return "Ql " argument(text)
}

# A sentence with code between backquotes. Punctuation that touches code goes into its macro.
function sentence(text, pieces, count, i, marks, macro) {
    if (text !~ /`[^`]*[.]`$/) text = text "."
    count = split(capital(text), pieces, "`")
    for (i = 1; i <= count; i += 2) {
        macro = "."
        if (i < count && sub(/[(]$/, "", pieces[i])) {
            macro = ".Pq "
            sub(/^[)]/, "", pieces[i + 2])
        }
        lines(pieces[i])
        if (i == count) return
        marks = ""
        while (match(pieces[i + 2], /^[,;:.]/)) {
            marks = marks " " substr(pieces[i + 2], 1, 1)
            pieces[i + 2] = substr(pieces[i + 2], 2)
        }
        print macro code(pieces[i + 1]) marks
    }
}
END

awk -F ' *[|] *' "$(cat "$work/cells")"'
    /^[|] refusal [|] its place [|]$/ {
        print ".Bl -tag -width \"42 to 44, 61 to 67\" -compact"
        in_table = 1
        next
    }
    in_table && /^[|]-/ { next }
    in_table && /^[|]/ { print ".It " argument($2); sentence($3) }
    in_table && !/^[|]/ { print ".El"; exit }
' "$root/docs/REFUSALS.md" > "$work/@PLACES@"

awk -F ' *[|] *' "$(cat "$work/cells")"'
    /^## / { heading = substr($0, 4); sub(/ *[(].*/, "", heading) }
    /^[|] [0-9]+ [|] [A-Z][A-Za-z]* [|]/ {
        if (heading != shown) {
            if (shown != "") print ".El"
            print ".Ss " heading
            print ".Bl -tag -width \"80 TractsTooLarge\""
            shown = heading
        }
        remedy = $6
        sub(/^the same/, before, remedy)
        before = remedy
        print ".It Sy " $2 " " $3
        sentence($4)
        sentence(remedy)
    }
    END { print ".El" }
' "$root/docs/REFUSALS.md" > "$work/@REFUSALS@"

{
    echo '.Bd -literal'
    sed -n '/^     west boundary /,/south boundary$/s/^    //p' "$root/docs/NOTES-FORMAT.md"
    echo '.Ed'
} > "$work/@LINES@"

{
    echo '.\" Made by tools/man_page.sh from man/township.1.in and docs/: change these instead.'
    while IFS= read -r line; do
        case $line in
            @*@) cat "$work/$line" ;;
            *) printf '%s\n' "$line" ;;
        esac
    done < "$root/man/township.1.in"
} | awk "$(cat "$work/cells")"'
    /^[.]Bd -literal/ { is_literal = 1 }
    /^[.]Ed/ { is_literal = 0 }
    { print is_literal && !/^[.]/ ? typed($0) : $0 }
' > "$work/page"

case ${1:-} in
    --check) diff "$root/man/township.1" "$work/page" ;;
    '') cp "$work/page" "$root/man/township.1" ;;
    *) echo "usage: sh tools/man_page.sh [--check]" >&2 && exit 2 ;;
esac
