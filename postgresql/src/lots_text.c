/*
 * Lot tables as text (CSV). A table that says where its lots lie has a record for each lot, with the aliquot parts in
 * which it lies, and one for the land of a section that is not there.
 */
#include "land.h"
#include "lots.h"

#include "lib/stringinfo.h"

#define NO_LAND 100
#define FIRST_DIVIDED 101

/* The quarter-quarters along a side of a section, and the places along a side of one. */
#define QUARTERS 4
#define SIDE (TOWNSHIP_PLACES_ACROSS / QUARTERS)

/* Aliquot parts are the same in each section. They are written for one in which a regular township has no lots. */
#define PLAIN_SECTION 14
#define PLAIN_BEGINNING "sec. 14, "

/* A whole section is no aliquot part, so its halves are written. */
#define WHOLE "all"
#define HALVES "N1/2, S1/2"

/* The mark of a place of a quarter-quarter that has this byte: the number of its lot, or NO_LAND. */
static int mark_of(const township_lots *lots, int byte, int place) {
    size_t at = (size_t)(byte - FIRST_DIVIDED) * SIDE * SIDE + (size_t)place;

    if (byte < FIRST_DIVIDED) {
        return byte;
    }
    return at < sizeof lots->divided ? lots->divided[at] : 0;
}

/* Finds the places of a section with a mark. Returns whether there are any. */
static bool find_marked(const township_lots *lots, int section, int mark, uint32_t *rows) {
    const uint8_t *positions = lots->positions + QUARTERS * QUARTERS * (section - 1);
    bool any = false;
    int index;
    int place;

    memset(rows, 0, TOWNSHIP_PLACES_ACROSS * sizeof *rows);
    for (index = 0; index < QUARTERS * QUARTERS; index++) {
        for (place = 0; place < SIDE * SIDE; place++) {
            if (mark_of(lots, positions[index], place) == mark) {
                rows[SIDE * (index / QUARTERS) + place / SIDE] |= UINT32_C(1)
                                                                  << (SIDE * (index % QUARTERS) + place % SIDE);
                any = true;
            }
        }
    }
    return any;
}

static township_answer write_land(const void *given, uint8_t *text, size_t room) {
    return township_land_text(given, text, room);
}

/* Appends the land of a record: the aliquot parts of these places, in quotation marks if there are several. */
static void append_parts(StringInfo table, const uint32_t *rows) {
    township_land land = {.township = {1, TOWNSHIP_NORTH, 1, TOWNSHIP_EAST}};
    township_answer answer;
    const char *parts;
    char *text;
    int length;

    memcpy(land.rows[PLAIN_SECTION - 1], rows, sizeof land.rows[0]);
    answer = twpg_write(write_land, &land, &text);
    if (answer.verdict != TOWNSHIP_ACCEPTED) {
        twpg_fail(answer.verdict);
    }
    parts = strstr(text, PLAIN_BEGINNING);
    if (parts == NULL) {
        /* There are no such places. */
        return;
    }
    parts += strlen(PLAIN_BEGINNING);
    length = (int)strcspn(parts, ".");
    if (length == (int)strlen(WHOLE) && strncmp(parts, WHOLE, strlen(WHOLE)) == 0) {
        parts = HALVES;
        length = (int)strlen(HALVES);
    }
    if (memchr(parts, ',', (size_t)length) != NULL) {
        appendStringInfo(table, "\"%.*s\"", length, parts);
    } else {
        appendBinaryStringInfo(table, parts, length);
    }
}

/* Appends the records of the lots of a section, except those that the table lacks. */
static void append_lots(StringInfo table, const township_lots *lots, int section) {
    uint32_t rows[TOWNSHIP_PLACES_ACROSS];
    int index;

    for (index = lots->first[section - 1]; index < lots->first[section]; index++) {
        uint32_t figure = lots->figures[index];

        if (figure != 0) {
            appendStringInfo(table, "%d,%d,%u.%02u", section, lots->numbers[index], figure / 100, figure % 100);
            if (lots->mapped != 0) {
                appendStringInfoChar(table, ',');
                find_marked(lots, section, lots->numbers[index], rows);
                append_parts(table, rows);
            }
            appendStringInfoChar(table, '\n');
        }
    }
}

static void append_missing(StringInfo table, const township_lots *lots, int section) {
    uint32_t rows[TOWNSHIP_PLACES_ACROSS];

    if (find_marked(lots, section, NO_LAND, rows)) {
        appendStringInfo(table, "%d,,,", section);
        append_parts(table, rows);
        appendStringInfoChar(table, '\n');
    }
}

/* The text of a lot table. */
char *twpg_lots_text(const township_lots *lots) {
    const township_designation *at = &lots->township;
    StringInfoData table;
    int section;

    initStringInfo(&table);
    appendStringInfo(&table, "section,lot,acres%s\nT,%u,%c,%u,%c", lots->mapped != 0 ? ",land" : "", at->number,
                     at->north_south == TOWNSHIP_NORTH ? 'N' : 'S', at->range,
                     at->east_west == TOWNSHIP_EAST ? 'E' : 'W');
    if (lots->date != 0) {
        appendStringInfo(&table, ",%s", twpg_date_text(lots->date));
    }
    appendStringInfoChar(&table, '\n');
    for (section = 1; section <= TOWNSHIP_SECTIONS; section++) {
        append_lots(&table, lots, section);
        if (lots->mapped != 0) {
            append_missing(&table, lots, section);
        }
    }
    return table.data;
}
