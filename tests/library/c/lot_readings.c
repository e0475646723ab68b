/* Tries the call for readings on the plat of a lot table. */
#include "land.h"

#include <stdlib.h>
#include <string.h>

#include "check.h"
#include "given.h"

#define COUNT(array) (sizeof(array) / sizeof *(array))
/* The standard lots, with which each text has the readings that it has without a table. */
#define STANDARD "section,lot,acres\nT,2,N,3,W\n5,1,40.45\n"

/* Where the call writes, filled with NEVER before it. */
typedef struct rooms {
    township_reading readings[TOWNSHIP_READINGS_MOST];
    township_change changes[16];
    uint8_t bytes[1024];
    township_suggestion suggestion;
} rooms;

static township_answer suggest_by(const township_lots *lots, const char *text, rooms *to, size_t room) {
    bytes given = bytes_of(text);

    memset(to, NEVER, sizeof *to);
    const township_answer answer =
        township_lots_suggest(lots, given.at, given.length, to->readings, COUNT(to->readings), to->changes,
                              COUNT(to->changes), to->bytes, room, &to->suggestion);
    drop(given);
    return answer;
}

/* A text has exactly these readings by a table: of each, its text, which ends a line if it is canonical, a bar, and its
   manner. */
static void reads_by(const township_lots *lots, const char *text, const char *wanted) {
    rooms found;
    char shown[1024] = "";
    size_t at = 0;

    CHECK_ANSWER(suggest_by(lots, text, &found, sizeof found.bytes), bare(TOWNSHIP_ACCEPTED));
    for (uint64_t i = 0; i < found.suggestion.readings; i++) {
        const township_reading *reading = &found.readings[i];

        at += (size_t)snprintf(shown + at, sizeof shown - at, "%.*s|%u\n", (int)reading->text_length,
                               (const char *)found.bytes + reading->text, reading->manner);
    }
    CHECK(strcmp(shown, wanted) == 0);
    if (strcmp(shown, wanted) != 0) {
        printf("%s:\n%s", text, shown);
    }
}

/* Lots 1 to 3 of section 14 are in its N1/2NE1/4, and lot 1 of section 5 is its NE1/4NE1/4; section 6 has none. */
static void names_the_lots_of_the_plat(const township_lots *lake, const township_lots *standard) {
    reads_by(lake, "Sec 14: NE/4", "sec. 14, lots 1, 2, 3, S1/2NE1/4.\n|1\n");
    reads_by(standard, "Sec 14: NE/4", "Sec 14: NE1/4|0\n");
    reads_by(lake, "Sec 5: N/2", "sec. 5, lot 1, NW1/4NE1/4, S1/2NE1/4, NW1/4.\n|1\n");
    reads_by(standard, "Sec 5: N/2", "sec. 5, lots 1, 2, 3, 4, S1/2NE1/4, S1/2NW1/4.\n|1\n");
    reads_by(lake, "Sec 6: N/2", "Sec 6: N1/2|0\n");
    /* A part that is called fractional has to include lots. */
    reads_by(lake, "Fractional NE/4 Sec 14", "sec. 14, lots 1, 2, 3, S1/2NE1/4.\n|1\n");
    reads_by(standard, "Fractional NE/4 Sec 14", "");
    /* The lake is in the NW1/4NW1/4, where the plat has no land; and lot 2 is half of a quarter-quarter. */
    reads_by(lake, "Sec 14: N/2", "");
    reads_by(lake, "Sec 14: NW/4 NE/4 NE/4", "");
    /* White space is between two parts, of which the first is lot 1, or between the steps of one. */
    reads_by(lake, "sec. 14: NE1/4NE1/4 SW1/4SW1/4",
             "sec. 14, lot 1, SW1/4SW1/4.\n|1\nsec. 14: NE1/4NE1/4SW1/4SW1/4|0\n");
}

/* The township of the table doesn't matter, but there has to be one. */
static void takes_other_townships(const township_lots *lake) {
    township_lots nowhere = *lake;
    rooms found, none;

    reads_by(lake, "T9S R9E Sec 14: NE/4", "T. 9 S., R. 9 E.,\nsec. 14, lots 1, 2, 3, S1/2NE1/4.\n|1\n");
    reads_by(lake, "T. 9 S., R. 9 E., sec. 14, lot 9.", "T. 9 S., R. 9 E., sec. 14, lot 9.|0\n");
    nowhere.township.number = 0;
    memset(&none, NEVER, sizeof none);
    CHECK_ANSWER(suggest_by(&nowhere, "Sec 14: NE/4", &found, sizeof found.bytes), bare(TOWNSHIP_NO_LOTS));
    CHECK(memcmp(&found, &none, sizeof none) == 0);
}

/* With too little room, only the sizes are written. */
static void needs_room(const township_lots *lake) {
    static const char text[] = "Sec 14: NE/4";
    rooms whole, found, none;

    CHECK_ANSWER(suggest_by(lake, text, &whole, sizeof whole.bytes), bare(TOWNSHIP_ACCEPTED));
    const size_t room = (size_t)whole.suggestion.bytes;
    memset(&none, NEVER, sizeof none);
    none.suggestion = whole.suggestion;
    CHECK_ANSWER(suggest_by(lake, text, &found, room - 1), bare(TOWNSHIP_NO_ROOM));
    CHECK(memcmp(&found, &none, sizeof none) == 0);
    CHECK_ANSWER(suggest_by(lake, text, &found, room), bare(TOWNSHIP_ACCEPTED));
    CHECK(memcmp(&found, &whole, sizeof whole) == 0);
}

/* By the standard lots, a text has the readings that it has without a table. */
static void reads_as_without_a_table(const township_lots *standard) {
    static const char *const texts[] = {"",
                                        "sec. 14, NE1/4.",
                                        "Sec 5: NE/4",
                                        "Fractional N/2 Sec 6",
                                        "sec. 14: NE1/4NE1/4 SW1/4SW1/4",
                                        "All of Sec 6 except the NE/4",
                                        "that portion of the NE/4 lying north of the road"};

    for (size_t i = 0; i < COUNT(texts); i++) {
        bytes given = bytes_of(texts[i]);
        rooms by_table, without;

        memset(&without, NEVER, sizeof without);
        CHECK_ANSWER(suggest_by(standard, texts[i], &by_table, sizeof by_table.bytes),
                     township_suggest(given.at, given.length, without.readings, COUNT(without.readings),
                                      without.changes, COUNT(without.changes), without.bytes, sizeof without.bytes,
                                      &without.suggestion));
        CHECK(memcmp(&by_table, &without, sizeof without) == 0);
        drop(given);
    }
}

/* The explanation of a refused text ends with its only reading by the same table. */
static void agrees_with_the_explanation(const township_lots *lake) {
    bytes given = bytes_of("sec. 14, NE/4");
    static const char wanted[] = "sec. 14, lots 1, 2, 3, S1/2NE1/4.";
    township_explanation parts;
    room *r = room_new();
    const township_answer answer = township_lots_explain_description_parts(
        lake, given.at, given.length, (const uint8_t *)"", 0, room_text(r), MOST_TEXT, &parts);

    reads_by(lake, "sec. 14, NE/4", "sec. 14, lots 1, 2, 3, S1/2NE1/4.\n|1\n");
    CHECK(answer.verdict == TOWNSHIP_REFUSED && parts.repair_length == sizeof wanted - 1);
    CHECK(memcmp(room_text(r) + parts.repair, wanted, sizeof wanted - 1) == 0);
    drop(given);
    free(r);
}

void answers_lot_readings(void) {
    township_lots lake = table_of(LAKE);
    township_lots standard = table_of(STANDARD);

    names_the_lots_of_the_plat(&lake, &standard);
    takes_other_townships(&lake);
    needs_room(&lake);
    reads_as_without_a_table(&standard);
    agrees_with_the_explanation(&lake);
}
