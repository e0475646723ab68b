#include <stdlib.h>
#include <string.h>

#include "area.h"
#include "check.h"
#include "given.h"
#include "land.h"

#define COUNT(array) (sizeof(array) / sizeof *(array))

/* The same lots on a plat without a date. */
#define UNDATED LAKE_OF("")
/* A later plat of the same township, on which they have the same places. */
#define LATER LAKE_OF(",1955-06-30")
/* The lots of a regular township, on a plat with a date, and on one without. */
#define STANDARD_OF(date) "section,lot,acres\nT,2,N,3,W" date "\n5,1,40.45\n5,2,40.55\n"
#define STANDARD STANDARD_OF("")
#define STANDARD_1912 STANDARD_OF(",1912-03-04")
#define STANDARD_1955 STANDARD_OF(",1955-06-30")

/* Something that no call writes. */
static township_land other_land(void) {
    township_land land;

    memset(&land, 0xA5, sizeof land);
    return land;
}

static township_answer read_by(const township_lots *lots, const char *text, township_land *land) {
    bytes description = bytes_of(text);
    township_answer answer = township_lots_land_read(lots, description.at, description.length, land);

    drop(description);
    return answer;
}

/* The land that a description names on the plat of a table. */
static township_land land_by(const township_lots *lots, const char *text) {
    township_land land = other_land();

    CHECK_ANSWER(read_by(lots, text, &land), bare(TOWNSHIP_ACCEPTED));
    return land;
}

/* Land without places, on the plat of a table. */
static township_land empty_land_by(const township_lots *lots) {
    township_land land;

    memset(&land, 0, sizeof land);
    land.date = lots->date;
    land.own_lots = lots->mapped != 0;
    land.township = lots->township;
    return land;
}

/* A set of places with these bits in some rows of a section, from the south. */
static void add_rows(township_land *land, int section, int from, int to, uint32_t places) {
    for (int row = from; row < to; row++) {
        land->rows[section - 1][row] |= places;
    }
}

/* Half of lot 1 of section 14, which is its NE1/4NE1/4. */
static township_land half_of_lot_1(const township_lots *lots) {
    township_land land = empty_land_by(lots);

    add_rows(&land, 14, 28, 32, 0xFF);
    return land;
}

static bool same_land(const township_land *a, const township_land *b) {
    return memcmp(a, b, sizeof *a) == 0;
}

/* A quarter-quarter is 8 columns wide, from the east, whose bits are the lowest, and 8 rows high, from the south. */
static void reads_places(void) {
    township_lots lake = table_of(LAKE);
    township_land wanted = empty_land_by(&lake);
    township_land read = land_by(&lake, "sec. 14, lots 1 to 3.");

    /* Lots 2 and 3 are the north and the south half of one quarter-quarter. */
    add_rows(&wanted, 14, 24, 32, 0xFFFF);
    CHECK(same_land(&read, &wanted));
    CHECK(read.date == 19120304 && read.own_lots == 1);
    read = land_by(&lake, "sec. 14, lot 2.");
    wanted = empty_land_by(&lake);
    add_rows(&wanted, 14, 28, 32, 0xFF00);
    CHECK(same_land(&read, &wanted));
    /* Lot 4 has two quarter-quarters. */
    read = land_by(&lake, "T. 2 N., R. 3 W., sec. 14, lot 4; sec. 5, lot 1.");
    wanted = empty_land_by(&lake);
    add_rows(&wanted, 14, 16, 32, 0xFF0000);
    add_rows(&wanted, 5, 24, 32, 0xFF);
    CHECK(same_land(&read, &wanted));
    /* Section 14 without the lake in its northwest corner; and section 6, which has no lots on this plat. */
    wanted = empty_land_by(&lake);
    add_rows(&wanted, 14, 0, 24, 0xFFFFFFFF);
    add_rows(&wanted, 14, 24, 32, 0xFFFFFF);
    read = land_by(&lake, "sec. 14.");
    CHECK(same_land(&read, &wanted));
    read = land_by(&lake, "sec. 14, all.");
    CHECK(same_land(&read, &wanted));
    read = land_by(&lake, "sec. 6, NW1/4.");
    wanted = empty_land_by(&lake);
    add_rows(&wanted, 6, 16, 32, 0xFFFF0000);
    CHECK(same_land(&read, &wanted));
}

/* Land is on the plat of the table, by its date, and by whose lots it has. */
static void reads_plats(void) {
    township_lots undated = table_of(UNDATED);
    township_lots standard = table_of(STANDARD);
    township_lots dated = table_of(STANDARD_1912);
    township_land regular = land_of("sec. 5, lots 1 and 2, S1/2NE1/4.");
    township_land read = land_by(&undated, "sec. 14, lot 1.");

    CHECK(read.date == 0 && read.own_lots == 1);
    read = land_by(&standard, "sec. 5, lots 1 and 2, S1/2NE1/4.");
    CHECK(same_land(&read, &regular));
    read = land_by(&dated, "sec. 5, lots 1 and 2, S1/2NE1/4.");
    CHECK(read.date == 19120304 && read.own_lots == 0);
    regular.date = 19120304;
    CHECK(same_land(&read, &regular));
}

/* The table writes this text for land, if there is room for it, and reads the same land from it. */
static void writes(const township_lots *lots, const township_land *land, const char *text) {
    size_t length = strlen(text);
    room *r = room_new();

    CHECK_ANSWER(township_lots_land_text(lots, land, room_text(r), length), with_length(TOWNSHIP_ACCEPTED, length));
    CHECK(room_holds(r, text, length));
    room_clear(r);
    if (length > 0) {
        township_land read = land_by(lots, text);

        CHECK_ANSWER(township_lots_land_text(lots, land, room_text(r), length - 1),
                     with_length(TOWNSHIP_NO_ROOM, length));
        CHECK(room_holds(r, "", 0));
        CHECK(memcmp(read.rows, land->rows, sizeof read.rows) == 0);
    }
    free(r);
}

static void writes_described(const township_lots *lots, const char *description, const char *text) {
    township_land land = land_by(lots, description);

    writes(lots, &land, text);
}

#define HERE "T. 2 N., R. 3 W.,\n"

static void writes_by_table(void) {
    township_lots lake = table_of(LAKE);
    township_lots standard = table_of(STANDARD);
    township_lots dated = table_of(STANDARD_1912);
    township_lots none = lake;
    township_land land = land_by(&lake, "sec. 14, lots 1 to 4.");
    township_land empty = empty_land_by(&lake);
    township_land regular = land_of("sec. 5, lot 1.");

    writes(&lake, &land, HERE "sec. 14, lots 1, 2, 3, 4.\n");
    writes(&lake, &empty, "");
    writes_described(&lake, "sec. 14, S1/2, lot 3, S1/2NE1/4, lot 1; sec. 5, lot 1.",
                     HERE "sec. 5, lot 1;\nsec. 14, lots 1, 3, S1/2NE1/4, S1/2.\n");
    /* All that the plat has in a section is the section. */
    writes_described(&lake, "sec. 14, lots 1 to 4, SW1/4NW1/4, S1/2NE1/4, S1/2.", HERE "sec. 14, all.\n");
    writes_described(&lake, "sec. 14.", HERE "sec. 14, all.\n");
    /* Land that was read without a table is on any plat with the standard lots. */
    writes(&standard, &regular, HERE "sec. 5, lot 1.\n");
    writes(&dated, &regular, HERE "sec. 5, lot 1.\n");
    /* A table without lots writes aliquot parts: it says the places of land. */
    memset(none.positions, 0, sizeof none.positions);
    writes(&none, &land, HERE "sec. 14, N1/2NE1/4, E1/2NW1/4.\n");
}

/* A lot of two parts is taken whole, and written once. */
static void reads_lot_of_two_parts(void) {
    township_lots lots = table_of("section,lot,acres,land\nT,2,N,3,W\n"
                                  "20,7,55.20,\"NE1/4NE1/4, SW1/4SW1/4\"\n20,9,8.00,NW1/4NE1/4\n");
    township_land wanted = empty_land_by(&lots);
    township_land read = land_by(&lots, "sec. 20, lot 7.");

    add_rows(&wanted, 20, 24, 32, 0xFF);
    add_rows(&wanted, 20, 0, 8, 0xFF000000);
    CHECK(same_land(&read, &wanted));
    writes(&lots, &read, HERE "sec. 20, lot 7.\n");
    CHECK_ANSWER(township_lots_land_acres(&lots, &read), acres(5520));
    /* One of its parts is no land. */
    for (int row = 0; row < 8; row++) {
        wanted.rows[20 - 1][row] = 0;
    }
    CHECK_ANSWER(township_lots_land_acres(&lots, &wanted), bare(TOWNSHIP_NO_LAND));
}

/* A description and the land that it names have the same acreage. */
static void measures(const township_lots *lots, const char *text, uint64_t hundredths) {
    bytes description = bytes_of(text);
    township_land land = land_by(lots, text);
    township_fraction area = {1, 2, 3};

    CHECK_ANSWER(township_lots_acres(lots, description.at, description.length), acres(hundredths));
    CHECK_ANSWER(township_lots_land_acres(lots, &land), acres(hundredths));
    CHECK_ANSWER(township_lots_land_area(lots, &land, &area), bare(TOWNSHIP_ACCEPTED));
    CHECK(hundredths_of(area) == hundredths);
    drop(description);
}

static void measures_by_table(void) {
    township_lots lake = table_of(LAKE);
    township_lots lacking = lake;
    township_land land = land_by(&lake, "sec. 14, lots 1 to 3.");

    measures(&lake, "sec. 14, lots 1 to 3.", 3850 + 1225 + 1980);
    measures(&lake, "sec. 14, lot 4, S1/2.", 7110 + 32000);
    /* Of 16 quarter-quarters, one isn't there, and four are lots. */
    measures(&lake, "sec. 14.", 3850 + 1225 + 1980 + 7110 + 11 * 4000);
    measures(&lake, "sec. 5.", 4045 + 15 * 4000);
    measures(&lake, "sec. 6, all.", 64000);
    /* The first record is for lot 1 of section 5; the fourth, for lot 3 of section 14. */
    lacking.figures[3] = 0;
    CHECK_ANSWER(township_lots_land_acres(&lacking, &land), refused(TOWNSHIP_REFUSAL_LOTS_LACKING, 1403));
}

static void refuses(const township_lots *lots, const char *text, township_answer wanted) {
    township_land land = other_land();
    township_land kept = other_land();

    CHECK_ANSWER(read_by(lots, text, &land), wanted);
    CHECK(same_land(&land, &kept));
}

static void refuses_to_read(void) {
    township_lots lake = table_of(LAKE);
    township_lots standard = table_of(STANDARD);
    township_lots nowhere = lake;

    refuses(&lake, "", refused(44, 0));
    refuses(&lake, "T. 2 N., R. 4 W., sec. 14.", refused(61, 0));
    refuses(&lake, "sec. 14, lot 5.", refused(64, 13));
    refuses(&lake, "sec. 5, lots 1 and 2.", refused(64, 19));
    /* A part with lots; with part of a lot; and with a lot and land that isn't there, in the order of the numbers. */
    refuses(&lake, "sec. 14, NE1/4.", refused(66, 9));
    refuses(&lake, "sec. 14, W1/2NW1/4NE1/4.", refused(66, 9));
    refuses(&lake, "sec. 14, NW1/4.", refused(66, 9));
    refuses(&lake, "sec. 14, lot 1; sec. 14.", refused(67, 21));
    refuses(&lake, "sec. 14, NW1/4NW1/4.", refused(TOWNSHIP_REFUSAL_LAND_NO_LAND, 9));
    refuses(&lake, "sec. 14, S1/2, W1/2NW1/4.", refused(TOWNSHIP_REFUSAL_LAND_NO_LAND, 15));
    refuses(&standard, "sec. 14, lot 1.", refused(64, 13));
    nowhere.township.number = 0;
    refuses(&nowhere, "", bare(TOWNSHIP_NO_LOTS));
}

/* The three calls on land by a table answer alike, and write nothing. */
static void refuses_land(const township_lots *lots, const township_land *land, uint32_t verdict) {
    township_fraction area = {1, 2, 3};
    room *r = room_new();

    CHECK_ANSWER(township_lots_land_acres(lots, land), bare(verdict));
    CHECK_ANSWER(township_lots_land_area(lots, land, &area), bare(verdict));
    CHECK_ANSWER(township_lots_land_text(lots, land, room_text(r), MOST_TEXT), bare(verdict));
    CHECK(area.units_low == 1 && area.units_high == 2 && area.over == 3);
    CHECK(room_holds(r, "", 0));
    free(r);
}

/* Land of the same places, on a plat of another date, in another township, or with lots that are neither. */
static township_land of_date(township_land land, uint32_t date) {
    land.date = date;
    return land;
}

static township_land elsewhere(township_land land) {
    land.township.range = 4;
    return land;
}

static township_land with_lots(township_land land, uint32_t own_lots) {
    land.own_lots = own_lots;
    return land;
}

/* Of several faults, the first one is answered: of the table, the land, the township, and the plat; and last, that the
   land contains part of a lot of the table. */
static void refuses_in_order(void) {
    township_lots lake = table_of(LAKE);
    township_lots nowhere = lake;
    township_land half = half_of_lot_1(&lake);
    township_land later = of_date(half, 19550630);
    township_land neither = with_lots(elsewhere(later), 2);
    township_land far = elsewhere(later);
    /* In section 5, half of lot 1 of a regular township. */
    township_land part = empty_land_by(&lake);

    nowhere.township.east_west = 2;
    add_rows(&part, 5, 28, 32, 0xFF);
    part = with_lots(part, 0);
    refuses_land(&nowhere, &neither, TOWNSHIP_NO_LOTS);
    refuses_land(&lake, &neither, TOWNSHIP_NO_LAND);
    refuses_land(&lake, &part, TOWNSHIP_NO_LAND);
    refuses_land(&lake, &far, TOWNSHIP_OTHER_TOWNSHIP);
    refuses_land(&lake, &later, TOWNSHIP_OTHER_PLAT);
    refuses_land(&lake, &half, TOWNSHIP_NO_LAND);
}

/* Only land that was read without a table is on another plat than its own, if that one has the standard lots. */
static void refuses_other_plats(void) {
    static const char *const texts[] = {LAKE, UNDATED, LATER, STANDARD, STANDARD_1912, STANDARD_1955};
    township_lots lots[COUNT(texts)];
    township_land regular = land_of("sec. 20, N1/2.");

    for (size_t i = 0; i < COUNT(texts); i++) {
        lots[i] = table_of(texts[i]);
    }
    for (size_t i = 0; i < COUNT(texts); i++) {
        township_land land = land_by(&lots[i], "sec. 20, N1/2.");

        for (size_t j = 0; j < COUNT(texts); j++) {
            if (i == j || (same_land(&land, &regular) && lots[j].mapped == 0)) {
                writes(&lots[j], &land, HERE "sec. 20, N1/2.\n");
                CHECK_ANSWER(township_lots_land_acres(&lots[j], &land), acres(32000));
            } else {
                refuses_land(&lots[j], &land, TOWNSHIP_OTHER_PLAT);
            }
        }
    }
}

/* The operation makes the land of a description of two others, on the plat of a table. */
static void combines(const township_lots *lots, const char *first, uint32_t operation, const char *second,
                     const char *wanted) {
    township_land a = land_by(lots, first);
    township_land b = land_by(lots, second);
    township_land made = other_land();
    township_land land = wanted[0] == 0 ? empty_land_by(lots) : land_by(lots, wanted);

    CHECK_ANSWER(township_land_combine(&a, &b, operation, &made), bare(TOWNSHIP_ACCEPTED));
    CHECK(same_land(&made, &land));
}

static void compares(const township_land *first, const township_land *second, township_answer wanted, uint32_t code) {
    uint32_t comparison = 99;

    CHECK_ANSWER(township_land_compare(first, second, &comparison), wanted);
    CHECK(comparison == code);
}

/* Land of one plat is combined and compared without its table; land of two is not, even if its places are the same. */
static void combines_on_plat(void) {
    township_lots lake = table_of(LAKE);
    township_lots dated = table_of(STANDARD_1912);
    township_land lot = land_by(&lake, "sec. 14, lot 1.");
    township_land lots = land_by(&lake, "sec. 14, lots 1 and 2.");
    township_land half = half_of_lot_1(&lake);
    township_land on_date = land_by(&dated, "sec. 20.");
    township_land regular = land_of("sec. 20.");
    township_land made = other_land();
    township_land kept = other_land();

    combines(&lake, "sec. 14, lots 1 and 2.", TOWNSHIP_UNION, "sec. 14, lots 2 and 3.", "sec. 14, lots 1 to 3.");
    combines(&lake, "sec. 14, lots 1 and 2.", TOWNSHIP_INTERSECTION, "sec. 14, lots 2 and 3.", "sec. 14, lot 2.");
    combines(&lake, "sec. 14.", TOWNSHIP_DIFFERENCE, "sec. 14, S1/2, lots 1 to 3.",
             "sec. 14, lot 4, SW1/4NW1/4, S1/2NE1/4.");
    combines(&lake, "sec. 14, lot 2.", TOWNSHIP_INTERSECTION, "sec. 14, lot 3.", "");
    combines(&dated, "sec. 5, lot 1.", TOWNSHIP_UNION, "sec. 5, lot 2.", "sec. 5, lots 1 and 2.");
    compares(&lots, &lot, bare(TOWNSHIP_ACCEPTED), TOWNSHIP_CONTAINS);
    compares(&lot, &lots, bare(TOWNSHIP_ACCEPTED), TOWNSHIP_IS_CONTAINED);
    compares(&lot, &lot, bare(TOWNSHIP_ACCEPTED), TOWNSHIP_EQUAL);
    /* Without the table, a place is a place. */
    compares(&lot, &half, bare(TOWNSHIP_ACCEPTED), TOWNSHIP_CONTAINS);
    compares(&on_date, &on_date, bare(TOWNSHIP_ACCEPTED), TOWNSHIP_EQUAL);
    {
        const township_land others[] = {of_date(lot, 0), of_date(lot, 19550630), with_lots(lot, 0)};

        for (size_t i = 0; i < COUNT(others); i++) {
            compares(&lot, &others[i], bare(TOWNSHIP_OTHER_PLAT), 99);
            compares(&others[i], &lot, bare(TOWNSHIP_OTHER_PLAT), 99);
            CHECK_ANSWER(township_land_combine(&lot, &others[i], TOWNSHIP_UNION, &made), bare(TOWNSHIP_OTHER_PLAT));
        }
    }
    compares(&on_date, &regular, bare(TOWNSHIP_OTHER_PLAT), 99);
    compares(&regular, &on_date, bare(TOWNSHIP_OTHER_PLAT), 99);
    CHECK_ANSWER(township_land_combine(&regular, &on_date, TOWNSHIP_UNION, &made), bare(TOWNSHIP_OTHER_PLAT));
    CHECK(same_land(&made, &kept));
}

void answers_lot_lands(void) {
    reads_places();
    reads_plats();
    writes_by_table();
    reads_lot_of_two_parts();
    measures_by_table();
    refuses_to_read();
    refuses_in_order();
    refuses_other_plats();
    combines_on_plat();
}
