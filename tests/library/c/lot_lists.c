#include <stdlib.h>
#include <string.h>

#include "check.h"
#include "given.h"
#include "land.h"

_Static_assert(sizeof(township_lots_overlap) == 24, "an overlap by a lot table has 24 bytes");
_Static_assert(offsetof(township_lots_overlap, lacking) == 16, "a lot follows the hundredths");

#define COUNT(array) (sizeof(array) / sizeof *(array))

#define HEADING "name,description\n"

/* A table of a regular township with two of the four lots of section 5. */
#define TWO_LOTS "section,lot,acres\nT,2,N,3,W\n5,1,40.45\n5,2,40.55\n"

/*
 * By the lake, section 14 has lots 1 to 4, of 38.50, 12.25, 19.80, and 71.10 acres, and no land in one of its 16
 * quarter-quarters. The other lots and the lake take up five of them, so the section has 11 * 40 + 38.50 + 12.25 +
 * 19.80 + 71.10 = 581.65 acres.
 */
static const char by_the_lake[] = HEADING "A,\"sec. 14, lot 1.\"\n"
                                          "B,\"sec. 14, lot 5.\"\n"
                                          "C\n"
                                          "A,sec. 20\n"
                                          "D,\"sec. 14, NW1/4NW1/4.\"\n"
                                          "E,\"sec. 14, lots 1 and 2\"\n"
                                          "F,sec. 14\n";
#define TRACTS 7

/* The lots of section 5 have 81.00 acres by the table, which lacks lots 3 and 4. */
static const char of_two_lots[] = HEADING "A,\"sec. 5, lots 1 and 2.\"\nB,\"sec. 5, lots 3 and 4.\"\nC,sec. 5.\n";

static township_answer each_by(const township_lots *lots, const char *text, township_tract_answer *to, size_t room) {
    bytes list = bytes_of(text);
    township_answer answer = township_lots_report_each(lots, list.at, list.length, to, room);

    drop(list);
    return answer;
}

/* Whether this is the answer to a tract of this name, or of none. */
static bool is_answered(const township_tract_answer *found, const char *name, township_answer wanted) {
    char padded[TOWNSHIP_NAME_ROOM] = {0};

    memcpy(padded, name, strlen(name));
    return same_answer(found->answer, wanted) && found->name_length == strlen(name) &&
           memcmp(found->name, padded, sizeof padded) == 0;
}

static void answers_each(void) {
    township_lots lake = table_of(LAKE);
    township_lots two = table_of(TWO_LOTS);
    township_tract_answer none[TRACTS + 1], found[TRACTS + 1];

    memset(none, NEVER, sizeof none);
    memcpy(found, none, sizeof found);
    CHECK_ANSWER(each_by(&lake, by_the_lake, found, TRACTS - 1), with_length(TOWNSHIP_NO_ROOM, TRACTS));
    CHECK_ANSWER(each_by(&lake, "", found, TRACTS), refused(81, 1));
    CHECK_ANSWER(each_by(&lake, "name\nA,sec. 14\n", found, TRACTS), refused(81, 1));
    CHECK(memcmp(found, none, sizeof found) == 0);
    CHECK_ANSWER(each_by(&lake, by_the_lake, found, TRACTS + 1), with_length(TOWNSHIP_ACCEPTED, TRACTS));
    CHECK(is_answered(&found[0], "A", acres(3850)));
    CHECK(is_answered(&found[1], "B", tract_refused(3, 64, 13)));
    CHECK(is_answered(&found[2], "", refused(81, 4)));
    CHECK(is_answered(&found[3], "A", refused(82, 5)));
    CHECK(is_answered(&found[4], "D", tract_refused(6, TOWNSHIP_REFUSAL_LAND_NO_LAND, 9)));
    CHECK(is_answered(&found[5], "E", acres(5075)));
    CHECK(is_answered(&found[6], "F", acres(58165)));
    CHECK(memcmp(&found[TRACTS], &none[TRACTS], sizeof *none) == 0);
    CHECK_ANSWER(each_by(&two, of_two_lots, found, 3), with_length(TOWNSHIP_ACCEPTED, 3));
    CHECK(is_answered(&found[0], "A", acres(8100)));
    CHECK(is_answered(&found[1], "B", tract_refused(3, TOWNSHIP_REFUSAL_LOTS_LACKING, 503)));
    CHECK(is_answered(&found[2], "C", tract_refused(4, TOWNSHIP_REFUSAL_LOTS_LACKING, 503)));
    CHECK_ANSWER(each_by(&two, HEADING, found, 0), with_length(TOWNSHIP_ACCEPTED, 0));
}

static township_answer overlaps_by(const township_lots *lots, const char *text, township_lots_overlap *to,
                                   size_t room) {
    bytes list = bytes_of(text);
    township_answer answer = township_lots_overlaps(lots, list.at, list.length, to, room);

    drop(list);
    return answer;
}

static bool is_overlap(township_lots_overlap found, uint32_t first, uint32_t second, uint64_t hundredths,
                       uint32_t lacking) {
    return found.first == first && found.second == second && found.hundredths == hundredths &&
           found.lacking == lacking && found.reserved == 0;
}

/*
 * A, E, and F share lot 1, and E and F share lot 2, too. Land that is refused overlaps nothing; a tract whose name is
 * repeated may. On a plat of field notes, section 14 has no lots.
 */
static void finds_overlaps(void) {
    township_lots lake = table_of(LAKE);
    township_lots two = table_of(TWO_LOTS);
    township_lots_overlap none[4], found[4];

    memset(none, NEVER, sizeof none);
    memcpy(found, none, sizeof found);
    CHECK_ANSWER(overlaps_by(&lake, by_the_lake, found, 2), with_length(TOWNSHIP_NO_ROOM, 3));
    CHECK_ANSWER(overlaps_by(&lake, "", found, 4), refused(81, 1));
    CHECK(memcmp(found, none, sizeof found) == 0);
    CHECK_ANSWER(overlaps_by(&lake, by_the_lake, found, 4), with_length(TOWNSHIP_ACCEPTED, 3));
    CHECK(is_overlap(found[0], 2, 7, 3850, 0));
    CHECK(is_overlap(found[1], 2, 8, 3850, 0));
    CHECK(is_overlap(found[2], 7, 8, 5075, 0));
    CHECK(memcmp(&found[3], &none[3], sizeof *none) == 0);
    CHECK_ANSWER(overlaps_by(&two, of_two_lots, found, 2), with_length(TOWNSHIP_ACCEPTED, 2));
    CHECK(is_overlap(found[0], 2, 4, 8100, 0));
    CHECK(is_overlap(found[1], 3, 4, 0, 503));
    CHECK_ANSWER(overlaps_by(&lake, HEADING "A,\"sec. 14, lot 2\"\nB,\"sec. 14, lot 3\"\n", found, 0),
                 with_length(TOWNSHIP_ACCEPTED, 0));
    CHECK_ANSWER(overlaps_by(&lake, HEADING, found, 0), with_length(TOWNSHIP_ACCEPTED, 0));
}

static const char *const texts[] = {
    "sec. 14, lot 1.", "sec. 14, NE1/4.", "", "sec. 14, lot 1 and 2.", "sec. 14, lots 2 to 4.", "sec. 6, lot 1.",
};

#define TEXTS COUNT(texts)

/* Descriptions in a row, and room for their answers, with one more after it. No byte of it has been written. */
typedef struct row {
    bytes all;
    size_t offsets[TEXTS + 1];
    township_answer acres[TEXTS + 1];
    township_full_answer full[TEXTS + 1];
} row;

static row in_a_row(void) {
    row made;

    memset(&made, NEVER, sizeof made);
    made.all = row_of(texts, TEXTS, made.offsets);
    return made;
}

static township_answer acres_all(const township_lots *lots, row *to, size_t room) {
    return township_lots_acres_many(lots, to->all.at, to->all.length, to->offsets, TEXTS + 1, to->acres, room);
}

static township_answer answer_all(const township_lots *lots, row *to, size_t room) {
    return township_lots_answer_many(lots, to->all.at, to->all.length, to->offsets, TEXTS + 1, to->full, room);
}

/* Whether no byte has been written. */
static bool is_blank(const void *from, size_t size) {
    const uint8_t *at = from;

    for (size_t i = 0; i < size; i++) {
        if (at[i] != NEVER) {
            return false;
        }
    }
    return true;
}

/* Compares the answers to a description with those of the calls for one. */
static void check_full(const township_lots *lots, const char *text, township_full_answer found) {
    bytes description = bytes_of(text);
    uint8_t normal[TOWNSHIP_TEXT_ROOM], none[1];
    township_land land;
    township_answer answer = township_lots_land_read(lots, description.at, description.length, &land);

    if (answer.verdict == TOWNSHIP_ACCEPTED) {
        answer = township_lots_land_text(lots, &land, normal, sizeof normal);
        CHECK(memcmp(found.text, normal, answer.length) == 0);
    }
    CHECK(is_blank(found.text + answer.length, sizeof found.text - answer.length));
    CHECK_ANSWER(found.normal, answer);
    CHECK_ANSWER(found.acres, township_lots_acres(lots, description.at, description.length));
    if (found.acres.verdict == TOWNSHIP_ACCEPTED) {
        CHECK_ANSWER(found.note, township_lots_explain_description(lots, description.at, description.length,
                                                                   (const uint8_t *)"", 0, none, 0));
    } else {
        CHECK_ANSWER(found.note, found.acres);
    }
    drop(description);
}

/* Lot 1 has 38.50 acres; the northeast quarter includes lots; lots 2 to 4 have 103.15 acres, but only by a table that
   returns acreage for lot 2. */
static void answers_many(void) {
    township_lots lake = table_of(LAKE);
    row to = in_a_row();

    CHECK_ANSWER(acres_all(&lake, &to, TEXTS - 1), with_length(TOWNSHIP_NO_ROOM, TEXTS));
    CHECK_ANSWER(answer_all(&lake, &to, TEXTS - 1), with_length(TOWNSHIP_NO_ROOM, TEXTS));
    CHECK(is_blank(to.acres, sizeof to.acres) && is_blank(to.full, sizeof to.full));
    CHECK_ANSWER(acres_all(&lake, &to, TEXTS + 1), with_length(TOWNSHIP_ACCEPTED, TEXTS));
    CHECK_ANSWER(answer_all(&lake, &to, TEXTS + 1), with_length(TOWNSHIP_ACCEPTED, TEXTS));
    for (size_t i = 0; i < TEXTS; i++) {
        check_full(&lake, texts[i], to.full[i]);
        CHECK_ANSWER(to.acres[i], to.full[i].acres);
    }
    CHECK(is_blank(&to.acres[TEXTS], sizeof *to.acres) && is_blank(&to.full[TEXTS], sizeof *to.full));
    CHECK_ANSWER(to.acres[0], acres(3850));
    CHECK_ANSWER(to.acres[1], refused(66, 9));
    CHECK(to.full[3].note.verdict == TOWNSHIP_NO_ROOM && to.full[3].note.column == 10);
    CHECK_ANSWER(to.acres[4], acres(10315));
    CHECK_ANSWER(to.acres[5], refused(64, 12));
    /* The first figure is that of lot 1 of section 5, so the third is that of lot 2 of section 14. */
    lake.figures[2] = 0;
    CHECK_ANSWER(answer_all(&lake, &to, TEXTS), with_length(TOWNSHIP_ACCEPTED, TEXTS));
    CHECK_ANSWER(to.full[4].acres, refused(TOWNSHIP_REFUSAL_LOTS_LACKING, 1402));
    CHECK_ANSWER(to.full[4].note, to.full[4].acres);
    CHECK(to.full[4].normal.verdict == TOWNSHIP_ACCEPTED);
    drop(to.all);
}

/* Offsets that are not in order, or beyond the bytes, have no description between them. */
static void answers_ranges(void) {
    township_lots lake = table_of(LAKE);
    bytes all = bytes_of(texts[0]);
    const size_t offsets[] = {all.length, 0, all.length + 1, all.length, 0, all.length};
    township_answer found[COUNT(offsets) - 1];
    township_full_answer full[COUNT(offsets) - 1];

    memset(full, NEVER, sizeof full);
    CHECK_ANSWER(township_lots_acres_many(&lake, all.at, all.length, offsets, COUNT(offsets), found, COUNT(found)),
                 with_length(TOWNSHIP_ACCEPTED, COUNT(found)));
    CHECK_ANSWER(township_lots_answer_many(&lake, all.at, all.length, offsets, COUNT(offsets), full, COUNT(full)),
                 with_length(TOWNSHIP_ACCEPTED, COUNT(full)));
    for (size_t i = 0; i < 4; i++) {
        CHECK_ANSWER(found[i], bare(TOWNSHIP_NO_RANGE));
        CHECK_ANSWER(full[i].acres, bare(TOWNSHIP_NO_RANGE));
        CHECK_ANSWER(full[i].normal, bare(TOWNSHIP_NO_RANGE));
        CHECK_ANSWER(full[i].note, bare(TOWNSHIP_NO_RANGE));
        CHECK(is_blank(full[i].text, sizeof full[i].text));
    }
    CHECK_ANSWER(found[4], acres(3850));
    CHECK_ANSWER(full[4].acres, acres(3850));
    for (size_t count = 0; count < 2; count++) {
        CHECK_ANSWER(township_lots_acres_many(&lake, all.at, all.length, offsets, count, found, 0),
                     with_length(TOWNSHIP_ACCEPTED, 0));
        CHECK_ANSWER(township_lots_answer_many(&lake, all.at, all.length, offsets, count, full, 0),
                     with_length(TOWNSHIP_ACCEPTED, 0));
    }
    drop(all);
}

/* Any bytes are the lots of some table; only its township may be invalid. Nothing but that is answered: once for a
   list, of which nothing is written, and for each of many descriptions. */
static void refuses_no_table(void) {
    township_lots none, any;
    township_tract_answer each, kept_each;
    township_lots_overlap overlap = {1, 2, 3, 4, 0};
    row to = in_a_row();

    memset(&none, 0xA5, sizeof none);
    memset(&each, NEVER, sizeof each);
    kept_each = each;
    CHECK_ANSWER(each_by(&none, HEADING "A,sec. 14\n", &each, 1), bare(TOWNSHIP_NO_LOTS));
    CHECK(memcmp(&each, &kept_each, sizeof each) == 0);
    CHECK_ANSWER(overlaps_by(&none, by_the_lake, &overlap, 1), bare(TOWNSHIP_NO_LOTS));
    CHECK(is_overlap(overlap, 1, 2, 3, 4));
    CHECK_ANSWER(acres_all(&none, &to, TEXTS - 1), with_length(TOWNSHIP_NO_ROOM, TEXTS));
    CHECK_ANSWER(answer_all(&none, &to, TEXTS - 1), with_length(TOWNSHIP_NO_ROOM, TEXTS));
    CHECK(is_blank(to.acres, sizeof to.acres) && is_blank(to.full, sizeof to.full));
    CHECK_ANSWER(acres_all(&none, &to, TEXTS), with_length(TOWNSHIP_NO_LOTS, TEXTS));
    CHECK_ANSWER(answer_all(&none, &to, TEXTS), with_length(TOWNSHIP_NO_LOTS, TEXTS));
    CHECK(is_blank(&to.acres[TEXTS], sizeof *to.acres) && is_blank(&to.full[TEXTS], sizeof *to.full));
    for (size_t i = 0; i < TEXTS; i++) {
        CHECK_ANSWER(to.acres[i], bare(TOWNSHIP_NO_LOTS));
        CHECK_ANSWER(to.full[i].acres, bare(TOWNSHIP_NO_LOTS));
        CHECK_ANSWER(to.full[i].normal, bare(TOWNSHIP_NO_LOTS));
        CHECK_ANSWER(to.full[i].note, bare(TOWNSHIP_NO_LOTS));
        CHECK(is_blank(to.full[i].text, sizeof to.full[i].text));
    }
    /* With a township, such bytes are a table: it may lack lots, but each call answers. */
    any = none;
    any.township = table_of(LAKE).township;
    CHECK_ANSWER(each_by(&any, HEADING "A,sec. 14\n", &each, 1), with_length(TOWNSHIP_ACCEPTED, 1));
    CHECK(each.name_length == 1 && each.name[0] == 'A');
    CHECK_ANSWER(acres_all(&any, &to, TEXTS), with_length(TOWNSHIP_ACCEPTED, TEXTS));
    drop(to.all);
}

void answers_lot_lists(void) {
    answers_each();
    finds_overlaps();
    answers_many();
    answers_ranges();
    refuses_no_table();
}
