#include "explanations.h"

#include <stddef.h>
#include <stdlib.h>
#include <string.h>

#include "check.h"
#include "given.h"
#include "land.h"

_Static_assert(sizeof(township_explanation) == 112, "an explanation has 4 numbers of 4 bytes and 12 of 8");
_Static_assert(offsetof(township_explanation, start) == 16, "the numbers of 4 bytes are first");

#define NAME ((const uint8_t *)"f"), 1

/* Something that no call writes. */
static township_explanation other_parts(void) {
    township_explanation parts;

    memset(&parts, 0xA5, sizeof parts);
    return parts;
}

static bool is_kept(const township_explanation *parts) {
    township_explanation other = other_parts();

    return memcmp(parts, &other, sizeof other) == 0;
}

/* Whether a part of a text consists of these bytes. */
static bool is_part(const uint8_t *text, uint64_t start, uint64_t length, const char *wanted) {
    return length == strlen(wanted) && memcmp(text + start, wanted, length) == 0;
}

/* What an explanation has to say. */
typedef struct said {
    const char *shown; /* the bytes of the input that are underlined; LINE if a line is named; NULL if neither is */
    const char *other; /* the bytes of the other place; NULL if there is none */
    uint32_t record;
    const char *sentence;
    const char *excerpt;
    const char *hints;
    const char *repair;
} said;

/* Of a line, no bytes are underlined. */
static const char LINE[] = "";

static uint32_t shown_of(const char *shown) {
    return shown == NULL ? TOWNSHIP_SHOWN_NOTHING : shown == LINE ? TOWNSHIP_SHOWN_LINE : TOWNSHIP_SHOWN_BYTES;
}

static void check_parts(bytes input, const uint8_t *text, township_answer answer, township_explanation parts,
                        said wanted) {
    CHECK(parts.shown == shown_of(wanted.shown));
    CHECK(is_part(input.at, parts.start, parts.end - parts.start, wanted.shown == NULL ? "" : wanted.shown));
    CHECK(parts.has_other == (wanted.other != NULL) && parts.other_record == wanted.record);
    CHECK(is_part(input.at, parts.other_start, parts.other_end - parts.other_start,
                  wanted.other == NULL ? "" : wanted.other));
    CHECK(is_part(text, parts.sentence, parts.sentence_length, wanted.sentence));
    CHECK(is_part(text, parts.excerpt, parts.excerpt_length, wanted.excerpt));
    CHECK(is_part(text, parts.hints, parts.hints_length, wanted.hints));
    CHECK(is_part(text, parts.repair, parts.repair_length, wanted.repair));
    CHECK(parts.sentence + parts.sentence_length + 1 == parts.excerpt);
    CHECK(parts.excerpt + parts.excerpt_length == parts.hints);
    CHECK(parts.hints + parts.hints_length == answer.length);
}

/* The calls with and without the parts, for one kind of input. */
typedef struct kind {
    township_answer (*alone)(const township_plat *plat, bytes input, uint8_t *text, size_t size);
    township_answer (*with_parts)(const township_plat *plat, bytes input, uint8_t *text, size_t size,
                                  township_explanation *parts);
} kind;

/* Defines a kind: its two calls, and their first arguments, which may name `plat` and `input`. */
#define KIND(name, call_alone, call_with_parts, ...)                                                                   \
    static township_answer name##_alone(const township_plat *plat, bytes input, uint8_t *text, size_t size) {          \
        (void)plat;                                                                                                    \
        return call_alone(__VA_ARGS__, NAME, text, size);                                                              \
    }                                                                                                                  \
    static township_answer name##_with_parts(const township_plat *plat, bytes input, uint8_t *text, size_t size,       \
                                             township_explanation *parts) {                                            \
        (void)plat;                                                                                                    \
        return call_with_parts(__VA_ARGS__, NAME, text, size, parts);                                                  \
    }                                                                                                                  \
    static const kind name = {name##_alone, name##_with_parts}

KIND(NOTES, township_explain_notes, township_explain_notes_parts, input.at, input.length);
KIND(LAND, township_explain_description, township_explain_description_parts, plat, input.at, input.length);
KIND(LIST, township_explain_list, township_explain_list_parts, plat, input.at, input.length);
KIND(TABLE, township_explain_lots, township_explain_lots_parts, input.at, input.length);

/* A lot table that is given as text. */
static township_lots lots_of(bytes input) {
    township_lots lots;

    CHECK_ANSWER(township_lots_read(input.at, input.length, &lots), bare(TOWNSHIP_ACCEPTED));
    return lots;
}

/* The lot that the tables lack: lot 3 of section 5. */
#define LACKING 503

KIND(LACKED, township_explain_lacking, township_explain_lacking_parts, (township_lots[]){lots_of(input)}, LACKING);

/* The township with a lake, whose table lacks the acreage of lot 2. */
static township_lots lake(void) {
    township_lots lots = table_of(LAKE);

    /* The first record is for lot 1 of section 5, and the next one for lot 1 of section 14. */
    lots.figures[2] = 0;
    return lots;
}

KIND(BY_LOTS, township_lots_explain_description, township_lots_explain_description_parts, (township_lots[]){lake()},
     input.at, input.length);
KIND(LIST_BY_LOTS, township_lots_explain_list, township_lots_explain_list_parts, (township_lots[]){lake()}, input.at,
     input.length);

/* A section with lots 2 and 5, and none between them. */
#define GAP                                                                                                            \
    "section,lot,acres,land\nT,2,N,3,W\n"                                                                              \
    "14,2,40.00,NE1/4NE1/4\n"                                                                                          \
    "14,5,40.00,NW1/4NE1/4\n"

KIND(WITH_GAP, township_lots_explain_description, township_lots_explain_description_parts,
     (township_lots[]){table_of(GAP)}, input.at, input.length);

/* The same answer and text as without the parts; and neither a text nor parts if the room is a byte too small. */
static void explains(kind it, const township_plat *plat, const char *given, said wanted) {
    bytes input = bytes_of(given);
    township_explanation parts = other_parts();
    room *alone = room_new();
    room *r = room_new();
    township_answer answer = it.alone(plat, input, room_text(alone), MOST_TEXT);
    township_answer without_room = it.with_parts(plat, input, room_text(r), answer.length - 1, &parts);

    CHECK(without_room.verdict == TOWNSHIP_NO_ROOM && without_room.length == answer.length);
    CHECK(is_kept(&parts) && room_holds(r, "", 0));
    CHECK_ANSWER(it.with_parts(plat, input, room_text(r), MOST_TEXT, &parts), answer);
    CHECK(memcmp(room_text(r), room_text(alone), answer.length) == 0);
    check_parts(input, room_text(r), answer, parts, wanted);
    drop(input);
    free(alone);
    free(r);
}

/* Input of which nothing is explained: neither text nor parts are written. */
static void explains_nothing(const township_plat *plat, uint32_t verdict) {
    township_explanation parts = other_parts();
    bytes land = bytes_of("sec. 14.");
    bytes list = bytes_of("name,description\nA,sec. 14.\n");
    room *r = room_new();

    CHECK_ANSWER(township_explain_description_parts(plat, land.at, land.length, NAME, room_text(r), MOST_TEXT, &parts),
                 bare(verdict));
    CHECK_ANSWER(township_explain_list_parts(plat, list.at, list.length, NAME, room_text(r), MOST_TEXT, &parts),
                 bare(verdict));
    CHECK(is_kept(&parts) && room_holds(r, "", 0));
    drop(land);
    drop(list);
    free(r);
}

/* Of a lot table nothing is explained, nor of a lot that it does not lack, or a place that is no lot; and nothing of
   figures that are no table. */
static void explains_no_lots(void) {
    static const uint32_t places[] = {501, 0, 99, 3701, 25601, 4294967295u};
    township_explanation parts = other_parts();
    bytes table = bytes_of("section,lot,acres\nT,2,N,3,W\n5,1,40.45\n");
    township_lots lots = lots_of(table);
    room *r = room_new();

    CHECK_ANSWER(township_explain_lots_parts(table.at, table.length, NAME, room_text(r), MOST_TEXT, &parts),
                 bare(TOWNSHIP_ACCEPTED));
    for (size_t index = 0; index < sizeof places / sizeof *places; index++) {
        CHECK_ANSWER(township_explain_lacking_parts(&lots, places[index], NAME, room_text(r), MOST_TEXT, &parts),
                     bare(TOWNSHIP_ACCEPTED));
    }
    lots.township.number = 0;
    CHECK_ANSWER(township_explain_lacking_parts(&lots, 502, NAME, room_text(r), MOST_TEXT, &parts),
                 bare(TOWNSHIP_NO_LOTS));
    CHECK(is_kept(&parts) && room_holds(r, "", 0));
    drop(table);
    free(r);
}

/* The explanation of a description by the table has this answer, with the place of its fault. */
static void answers_by_lots(const char *text, township_answer wanted, uint32_t line, uint32_t column) {
    bytes input = bytes_of(text);
    room *r = room_new();
    township_answer answer = BY_LOTS.alone(NULL, input, room_text(r), MOST_TEXT);

    CHECK_ANSWER(answer, explained(wanted, line, column, answer.length));
    CHECK(answer.length > 0);
    drop(input);
    free(r);
}

/* On the plat of a lot table, lots are those of the table, and a note has no acreage. */
static void explains_by_lots(void) {
    answers_by_lots("sec. 14, lot 5.", refused(64, 13), 1, 14);
    explains(BY_LOTS, NULL, "sec. 14, lot 5.",
             (said){"5", NULL, 0, "section 14 has lots 1 to 4", "  1 | sec. 14, lot 5.\n    |              ^\n", "",
                    ""});
    explains(BY_LOTS, NULL, "sec. 5, lots 1 and 2.",
             (said){"2", NULL, 0, "section 5 has only lot 1",
                    "  1 | sec. 5, lots 1 and 2.\n    |                    ^\n", "", ""});
    explains(BY_LOTS, NULL, "sec. 6, lot 1.",
             (said){"1", NULL, 0, "section 6 has no lots", "  1 | sec. 6, lot 1.\n    |             ^\n", "", ""});
    explains(WITH_GAP, NULL, "sec. 14, lot 3.",
             (said){"3", NULL, 0, "section 14 has lots 2 and 5", "  1 | sec. 14, lot 3.\n    |              ^\n",
                    "  the nearest lots are 2 and 5\n", ""});
    explains(WITH_GAP, NULL, "sec. 14, lot 6.",
             (said){"6", NULL, 0, "section 14 has lots 2 and 5", "  1 | sec. 14, lot 6.\n    |              ^\n", "",
                    ""});
    answers_by_lots("sec. 14, NE1/4.", refused(66, 9), 1, 10);
    explains(BY_LOTS, NULL, "sec. 14, NE1/4.",
             (said){"NE1/4", NULL, 0, "this part includes lots; name the lots instead",
                    "  1 | sec. 14, NE1/4.\n    |          ^^^^^\n",
                    "  write sec. 14, lots 1, 2 and 3, S1/2NE1/4\n", ""});
    /* The lake is left out of the rest. */
    explains(BY_LOTS, NULL, "sec. 14, NW1/4.",
             (said){"NW1/4", NULL, 0, "this part includes a lot; name the lot instead",
                    "  1 | sec. 14, NW1/4.\n    |          ^^^^^\n", "  write sec. 14, lot 4, SW1/4NW1/4\n", ""});
    explains(BY_LOTS, NULL, "sec. 14, W1/2NW1/4NE1/4.",
             (said){"W1/2NW1/4NE1/4", NULL, 0, "this part cuts lots; lots can only be named whole",
                    "  1 | sec. 14, W1/2NW1/4NE1/4.\n    |          ^^^^^^^^^^^^^^\n",
                    "  it includes land of lots 2 and 3 of section 14\n", ""});
    answers_by_lots("sec. 14, NW1/4NW1/4.", refused(TOWNSHIP_REFUSAL_LAND_NO_LAND, 9), 1, 10);
    explains(BY_LOTS, NULL, "sec. 14, NW1/4NW1/4.",
             (said){"NW1/4NW1/4", NULL, 0, "the plat has no land in this part",
                    "  1 | sec. 14, NW1/4NW1/4.\n    |          ^^^^^^^^^^\n", "", ""});
    explains(BY_LOTS, NULL, "sec. 14, W1/2NW1/4.",
             (said){"W1/2NW1/4", NULL, 0, "the plat has no land in some of this part; name the rest instead",
                    "  1 | sec. 14, W1/2NW1/4.\n    |          ^^^^^^^^^\n", "  write sec. 14, SW1/4NW1/4\n", ""});
    /* The table is the whole reason: no byte of the description is shown. */
    answers_by_lots("sec. 14, lots 1 to 3.", refused(TOWNSHIP_REFUSAL_LOTS_LACKING, 1402), 0, 0);
    explains(BY_LOTS, NULL, "sec. 14, lots 1 to 3.",
             (said){NULL, NULL, 0, "the lot table has no record for lot 2 of section 14", "",
                    "  of section 14, it has these lots: 1, 3, 4\n", ""});
    answers_by_lots("sec. 14, lot 1 and 3.", bare(TOWNSHIP_ACCEPTED), 1, 10);
    explains(BY_LOTS, NULL, "sec. 14, lot 1 and 3.",
             (said){"lot 1 and 3", NULL, 0,
                    "lot 1 and 3 is read as lots 1 and 3; if lot 1 and sec. 3 were meant, write\n"
                    "  sec. 14, lot 1; sec. 3",
                    "  1 | sec. 14, lot 1 and 3.\n    |          ^^^^^^^^^^^\n", "", ""});
    /* The only reading of the first text is accepted on this plat; that of the second would be refused there (66). */
    explains(BY_LOTS, NULL, "sec. 14, SE/4.",
             (said){"/", NULL, 0, "`/` is allowed only in 1/2 and 1/4",
                    "  1 | sec. 14, SE/4.\n    |            ^\n",
                    "  write SE1/4\n  perhaps: sec. 14, SE1/4.\n", "sec. 14, SE1/4."});
    explains(BY_LOTS, NULL, "sec. 14, NE/4.",
             (said){"/", NULL, 0, "`/` is allowed only in 1/2 and 1/4",
                    "  1 | sec. 14, NE/4.\n    |            ^\n",
                    "  perhaps: sec. 14, lots 1, 2, 3, S1/2NE1/4.\n", "sec. 14, lots 1, 2, 3, S1/2NE1/4."});
}

/* So it is for the tracts of a list. A lot that the table lacks is not at one place of a description, so the tract's
   line is shown; and so it is if a tract overlaps another on the table's plat. */
static void explains_lists_by_lots(void) {
    bytes lacking = bytes_of("name,description\nA,\"sec. 14, lots 1 to 3.\"\n");
    room *r = room_new();
    township_answer answer = LIST_BY_LOTS.alone(NULL, lacking, room_text(r), MOST_TEXT);

    CHECK(answer.verdict == TOWNSHIP_TRACT_REFUSED && answer.number == 83 && answer.at == 2);
    CHECK(answer.inner_number == TOWNSHIP_REFUSAL_LOTS_LACKING && answer.inner_at == 1402);
    drop(lacking);
    free(r);
    explains(LIST_BY_LOTS, NULL, "name,description\nA,\"sec. 14, lots 1 to 3.\"\n",
             (said){LINE, NULL, 0, "tract `A`: the lot table has no record for lot 2 of section 14", "",
                    "  of section 14, it has these lots: 1, 3, 4\n", ""});
    explains(LIST_BY_LOTS, NULL, "name,description\nA,\"sec. 14, lot 5.\"\n",
             (said){"5", NULL, 0, "tract `A`: section 14 has lots 1 to 4",
                    "  2 | A,\"sec. 14, lot 5.\"\n    |                 ^\n", "", ""});
    explains(LIST_BY_LOTS, NULL, "name,description\nA,sec. 20.\nB,\"sec. 14, lots 1 and 4.\"\nC,\"sec. 14, lot 1.\"\n",
             (said){LINE, "\"sec. 14, lots 1 and 4.\"", 3,
                    "tract `C` overlaps tract `B` (record 3); both include sec. 14, lot 1.", "", "", ""});
    explains(LIST_BY_LOTS, NULL, "name,description\nA,sec. 13.\nA,sec. 14.\n",
             (said){"A", "A", 2, "tract `A` has the same name as an earlier tract, record 2 on line 2",
                    "  3 | A,sec. 14.\n    | ^\n", "", ""});
    explains(LIST_BY_LOTS, NULL, "name,description\nA,\"sec. 14, lot 1 and 3.\"\n",
             (said){"lot 1 and 3", NULL, 0,
                    "tract A: lot 1 and 3 is read as lots 1 and 3; if lot 1 and sec. 3 were\n"
                    "  meant, write sec. 14, lot 1; sec. 3",
                    "  2 | A,\"sec. 14, lot 1 and 3.\"\n    |             ^^^^^^^^^^^\n", "", ""});
}

/* Of accepted land without a doubtful place, nothing is explained; nor by a table of no township. */
static void explains_nothing_by_lots(void) {
    township_explanation parts = other_parts();
    township_lots lots = lake();
    bytes land = bytes_of("sec. 14, lots 1 and 3.");
    bytes list = bytes_of("name,description\nA,\"sec. 14, lots 1 and 3.\"\n");
    room *r = room_new();

    CHECK_ANSWER(township_lots_explain_description_parts(&lots, land.at, land.length, NAME, room_text(r), MOST_TEXT,
                                                         &parts),
                 bare(TOWNSHIP_ACCEPTED));
    CHECK_ANSWER(township_lots_explain_list_parts(&lots, list.at, list.length, NAME, room_text(r), MOST_TEXT, &parts),
                 bare(TOWNSHIP_ACCEPTED));
    lots.township.range = 0;
    CHECK_ANSWER(township_lots_explain_description_parts(&lots, land.at, land.length, NAME, room_text(r), MOST_TEXT,
                                                         &parts),
                 bare(TOWNSHIP_NO_LOTS));
    CHECK_ANSWER(township_lots_explain_list_parts(&lots, list.at, list.length, NAME, room_text(r), MOST_TEXT, &parts),
                 bare(TOWNSHIP_NO_LOTS));
    CHECK(is_kept(&parts) && room_holds(r, "", 0));
    drop(land);
    drop(list);
    free(r);
}

void gives_parts(const township_plat *plat) {
    township_plat none = *plat;

    none.number = 0;
    explains_nothing(plat, TOWNSHIP_ACCEPTED);
    explains_nothing(&none, TOWNSHIP_NO_PLAT);
    explains(LAND, plat, "sec. 14, NE1/4 and N1/2.",
             (said){"N1/2", "NE1/4", 0, "this land was named before",
                    "  1 | sec. 14, NE1/4 and N1/2.\n    |                    ^^^^\n",
                    "  `NE1/4` at 1:10 overlaps it; both include sec. 14, NE1/4.\n", ""});
    explains(LAND, plat, "sec. 14, NE/4.",
             (said){"/", NULL, 0, "`/` is allowed only in 1/2 and 1/4",
                    "  1 | sec. 14, NE/4.\n    |            ^\n",
                    "  write NE1/4\n  perhaps: sec. 14, NE1/4.\n", "sec. 14, NE1/4."});
    explains(LAND, plat, "sec. 14, NE1/4 SE1/4.",
             (said){"SE1/4", NULL, 0,
                    "NE1/4 SE1/4 is read as one part of 40.00 acres, the NE1/4 of the SE1/4; if\n"
                    "  two parts were meant, write a comma after NE1/4 (320.00 acres)",
                    "  1 | sec. 14, NE1/4 SE1/4.\n    |                ^^^^^\n", "", ""});
    explains(LIST, plat, "name,description\nA,\"sec. 14, NE1/4 and N1/2.\"\n",
             (said){"N1/2", "NE1/4", 0, "tract `A`: this land was named before",
                    "  2 | A,\"sec. 14, NE1/4 and N1/2.\"\n    |                       ^^^^\n",
                    "  `NE1/4` at 2:13 overlaps it; both include sec. 14, NE1/4.\n", ""});
    explains(LIST, plat, "name,description\nA,sec. 13.\nB,\"sec. 14, NE1/4.\"\nC,sec. 14.\n",
             (said){LINE, "\"sec. 14, NE1/4.\"", 3,
                    "tract `C` overlaps tract `B` (record 3); both include sec. 14, NE1/4.", "", "", ""});
    explains(LIST, plat, "name,description\nA,sec. 13.\nA,sec. 14.\n",
             (said){"A", "A", 2, "tract `A` has the same name as an earlier tract, record 2 on line 2",
                    "  3 | A,sec. 14.\n    | ^\n", "", ""});
    explains(NOTES, plat, "line,between,and,quarter,corner\nT,2,N,3,W\nN,1,2,40.000,80.000\nN,1,2,40.000,80.000\n",
             (said){"N,1,2,40.000,80.000", "N,1,2,40.000,80.000", 3, "duplicate record: N,1,2 (section line 1)",
                    "  4 | N,1,2,40.000,80.000\n    | ^^^^^^^^^^^^^^^^^^^\n",
                    "  record 3 at line 3 also returns this line\n", ""});
    explains_no_lots();
    explains(TABLE, plat, "section,lot,acres\nT,2,N,3,W\n5,1,40.45\n05,1,40.45\n",
             (said){"05,1", "5,1", 3, "duplicate record: section 5, lot 1",
                    "  4 | 05,1,40.45\n    | ^^^^\n", "  record 3 at line 3 is also for this lot\n", ""});
    explains(TABLE, plat, "section,lot,acres\nT,2,N,3,W\n5,1,40.5\n",
             (said){"40.5", NULL, 0,
                    "`40.5` is not an acreage: write 0.01 to 999.99, with two decimals, as in `40.45`",
                    "  3 | 5,1,40.5\n    |     ^^^^\n", "  write `40.50`\n", ""});
    explains(TABLE, plat, "",
             (said){NULL, NULL, 0, "the lot table is empty: it begins with `section,lot,acres`", "", "", ""});
    explains(LACKED, plat, "section,lot,acres\nT,2,N,3,W\n5,4,40.45\n5,1,40.45\n",
             (said){NULL, NULL, 0, "the lot table has no record for lot 3 of section 5", "",
                    "  of section 5, it has these lots: 1, 4\n", ""});
    explains(LACKED, plat, "section,lot,acres\nT,2,N,3,W\n6,4,40.45\n",
             (said){NULL, NULL, 0, "the lot table has no record for lot 3 of section 5", "",
                    "  it has no record for any lot of section 5\n", ""});
    explains_by_lots();
    explains_lists_by_lots();
    explains_nothing_by_lots();
    explains(NOTES, plat, "",
             (said){NULL, NULL, 0,
                    "the field notes are empty: they begin with `line,between,and,quarter,corner`", "", "", ""});
}
