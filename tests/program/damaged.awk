# Writes damaged inputs into the folder that it runs in, the same ones each time: for each of `count` cases
# its field notes, as N.notes, and its description or list of tracts, as N.text; and a line with N and how it
# is to be run. Joined input is in N.text alone. The samples' notes are named by `even` and `uneven`. Texts are
# cut and inserted by bytes: LC_ALL=C.

# A number from 0 up to another.
function random(below) {
    seed = seed * 16807 % 2147483647
    return seed % below
}

function pick(list, count) { return list[1 + random(count)] }

# The whole of a file.
function whole(name,   text, line) {
    text = ""
    while ((getline line < name) > 0) text = text line "\n"
    close(name)
    return text
}

# A text with one of its lines left out, put twice, or moved to the end.
function lines_damaged(text, kind,   n, at, i, line, result) {
    n = split(text, line, "\n")
    at = 1 + random(n)
    result = ""
    for (i = 1; i <= n; i++) {
        if (i != at || kind == 1) result = result (i > 1 ? "\n" : "") line[i]
        if (i == at && kind == 1) result = result "\n" line[i]
    }
    return kind == 2 ? result "\n" line[at] : result
}

# A text in which the number next to a place, if there is one, replaces another one.
function renumbered(text, at,   rest) {
    rest = substr(text, at)
    sub(/[0-9]+/, pick(numbers, number_count), rest)
    return substr(text, 1, at - 1) rest
}

# A text with something cut out of it, put into it, or put in another's place.
function damaged(text,   kind, at) {
    kind = random(14)
    at = 1 + random(length(text) + 1)
    if (kind > 9) return renumbered(text, at)
    if (kind < 3) return lines_damaged(text, kind)
    if (kind == 3) return substr(text, 1, at - 1)
    if (kind == 4) return substr(text, 1, at - 1) substr(text, at + 1)
    if (kind == 5) return substr(text, 1, at - 1) substr(text, at + 1 + random(8))
    if (kind < 8) return substr(text, 1, at - 1) pick(bits, bit_count) substr(text, at + 1)
    return substr(text, 1, at - 1) pick(bits, bit_count) substr(text, at)
}

function damaged_often(text,   times) {
    for (times = 1 + random(3); times > 0; times--) text = damaged(text)
    return text
}

# A list of a few tracts.
function tracts(   n, i, text) {
    text = "name,description\n"
    n = 1 + random(6)
    for (i = 1; i <= n; i++) text = text pick(names, name_count) i ",\"" pick(lands, land_count) "\"\n"
    return text
}

function write(text, name) {
    printf "%s", text > name
    close(name)
}

BEGIN {
    seed = 36
    even_notes = whole(even)
    uneven_notes = whole(uneven)
    ways = split("plat acres by-plat normal report joined", way, " ")
    # Bits with a space, a line feed, a bad byte, or characters that a terminal would act on.
    bit_count = split("0|1|7|36|37|.|,|;|:|/|\"|N|s|W,|x| |\n|\r\n|\t|\033[31m|\177|\007|\302\275|\275|" \
        "\302\240|\342\200\223|\303\261|lot |lots |sec. |secs. | and | to | of the |NE1/4|N1/2|S1/2NW1/4|" \
        "1/2|40.00|80.00|99.999|-1|00001|T. 2 N., R. 3 E., |except ", bits, "|")
    number_count = split("0 1 2 3 4 5 6 7 8 9 14 36 37 40 80 12345", numbers, " ")
    name_count = split("A|parcel |B|tract no. ", names, "|")
    land_count = split("sec. 14, NE1/4 and N1/2.|sec. 5, lot 1.|sec. 7, lots 1 to 4, inclusive.|" \
        "secs. 1 thru 36.|sec. 14, SE1/4, NE1/4, NW1/4.|T. 2 N., R. 3 W.,\nsec. 14, N1/2, SE1/4.|" \
        "sec. 6, lots 1, 2 and 7; sec. 8, N1/2 of the E1/2 of the NW1/4.|" \
        "sec. 14, NE1/4NE1/4NE1/4NE1/4NE1/4.|secs. 13, 24 and 25, all; sec. 36.|" \
        "sec. 9, S1/2NW1/4;\nsec. 10, W1/2;\nsec. 11, NE1/4SW1/4.|sec. 18, lot 3, E1/2.|" \
        "T. 2 N., R. 3 W., secs. 20 to 22; sec. 28, N1/2.", lands, "|")
    for (n = 1; n <= count; n++) {
        how = way[1 + n % ways]
        notes = random(2) ? even_notes : uneven_notes
        text = how == "report" ? tracts() : pick(lands, land_count)
        part = how == "plat" ? 0 : random(8)
        if (part == 0 || part == 1) notes = damaged_often(notes)
        if (part > 0) text = damaged_often(text)
        if (how == "joined") text = text "\n" notes
        write(notes, n ".notes")
        write(text, n ".text")
        print n, how
    }
}
