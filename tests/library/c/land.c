#include "land.h"

#include <stdlib.h>
#include <string.h>

#include "area.h"
#include "check.h"
#include "given.h"

#define COUNT(array) (sizeof(array) / sizeof *(array))

_Static_assert(sizeof(township_designation) == 4, "a designation has 4 bytes");
_Static_assert(sizeof(township_land) == 4620, "land has 36 * 32 rows and 2 numbers of 4 bytes, and a designation");
_Static_assert(sizeof(township_part) == 6, "a part has 6 bytes");
_Static_assert(offsetof(township_land, date) == 4608, "the date of the plat follows the rows");
_Static_assert(offsetof(township_land, township) == 4616, "the township is last");

/* T. 2 N., R. 3 W., which is the township of the plat. */
static const township_designation HERE = {2, TOWNSHIP_NORTH, 3, TOWNSHIP_WEST};

/* Something that no call writes. */
static township_land other_land(void) {
    township_land land;

    memset(&land, 0xA5, sizeof land);
    return land;
}

static township_answer read_land(township_designation township, const char *text, township_land *land) {
    bytes description = bytes_of(text);
    township_answer answer = township_land_read(&township, description.at, description.length, land);

    drop(description);
    return answer;
}

township_land land_of(const char *text) {
    township_land land = other_land();

    CHECK_ANSWER(read_land(HERE, text, &land), bare(TOWNSHIP_ACCEPTED));
    return land;
}

/* Land without places. */
static township_land empty_land(void) {
    township_land land;

    memset(&land, 0, sizeof land);
    land.township = HERE;
    return land;
}

/* The same places in another township. */
static township_land elsewhere(township_land land) {
    land.township.range = 4;
    return land;
}

/* Part of lot 1 of section 1: the place in the northeast corner of the township. */
static township_land part_of_a_lot(void) {
    township_land land = empty_land();

    land.rows[1 - 1][31] = 1;
    return land;
}

/* The same places on the plat of a lot table, with these lots. */
static township_land with_lots(township_land land, uint32_t own_lots) {
    land.own_lots = own_lots;
    return land;
}

/* The same places on a plat that was approved on a date. */
static township_land of_date(township_land land, uint32_t date) {
    land.date = date;
    return land;
}

static bool same_land(const township_land *a, const township_land *b) {
    return memcmp(a, b, sizeof *a) == 0;
}

/* A call that was not accepted has written nothing. */
static void keeps_land(township_answer answer, township_answer wanted, const township_land *land) {
    township_land other = other_land();

    CHECK_ANSWER(answer, wanted);
    CHECK(same_land(land, &other));
}

/* Rows are counted from the south, and columns from the east, whose bit is the lowest. */
static void reads_land(void) {
    township_land wanted = empty_land();
    township_land read = land_of("sec. 14, NE1/4.");

    for (int row = 16; row < TOWNSHIP_PLACES_ACROSS; row++) {
        wanted.rows[14 - 1][row] = 0xFFFF;
    }
    CHECK(same_land(&read, &wanted));
    read = land_of("sec. 14, NE1/4NE1/4NE1/4NE1/4NE1/4; sec. 36, SW1/4SW1/4SW1/4SW1/4SW1/4.");
    wanted = empty_land();
    wanted.rows[14 - 1][31] = 1;
    wanted.rows[36 - 1][0] = 0x80000000;
    CHECK(same_land(&read, &wanted));
    CHECK(read.date == 0 && read.own_lots == 0);
    /* Lot 1 of section 5 is its northeasternmost quarter of a quarter: 8 columns and 8 rows. */
    read = land_of("T. 2 N., R. 3 W., sec. 5, lot 1.");
    wanted = empty_land();
    for (int row = 24; row < TOWNSHIP_PLACES_ACROSS; row++) {
        wanted.rows[5 - 1][row] = 0xFF;
    }
    CHECK(same_land(&read, &wanted));
}

static void refuses_to_read(void) {
    const township_designation none[] = {{0, 0, 3, 1}, {100, 0, 3, 1}, {2, 2, 3, 1}, {2, 0, 0, 1}, {2, 0, 3, 2}};
    township_land land = other_land();

    keeps_land(read_land(HERE, "sec. 14, NE1/4 and N1/2.", &land), refused(67, 19), &land);
    keeps_land(read_land(HERE, "T. 2 N., R. 4 W., sec. 14.", &land), refused(61, 0), &land);
    keeps_land(read_land(HERE, "", &land), refused(44, 0), &land);
    for (size_t i = 0; i < COUNT(none); i++) {
        keeps_land(read_land(none[i], "sec. 14.", &land), bare(TOWNSHIP_NO_TOWNSHIP), &land);
    }
}

static void measures_land(const township_plat *plat) {
    township_land lots = land_of("sec. 7, lots 1 to 4.");
    township_land lot = land_of("sec. 7, lot 1.");
    township_land none = empty_land();
    township_land dated = of_date(lots, 19120304);
    township_fraction area = {1, 2, 3};

    CHECK_ANSWER(township_land_acres(plat, &lots, TOWNSHIP_EXACT), acres(15640));
    CHECK_ANSWER(township_land_acres(plat, &dated, TOWNSHIP_EXACT), acres(15640));
    CHECK_ANSWER(township_land_acres(plat, &lots, TOWNSHIP_BY_PLAT), acres(15642));
    CHECK_ANSWER(township_land_acres(plat, &none, TOWNSHIP_EXACT), acres(0));
    /* Lot 1 is 39.175 acres, which the plat shows as 39.18. */
    CHECK_ANSWER(township_land_area(plat, &lot, TOWNSHIP_EXACT, &area), bare(TOWNSHIP_ACCEPTED));
    CHECK(whole_units_of(area).rest == 0 && whole_units_of(area).units == 391750000);
    CHECK_ANSWER(township_land_area(plat, &lot, TOWNSHIP_BY_PLAT, &area), bare(TOWNSHIP_ACCEPTED));
    CHECK(whole_units_of(area).rest == 0 && whole_units_of(area).units == 391800000);
}

/* Of several faults, the first one is answered: of the plat, the land, the account, the township, and whether the land
   has the standard lots. */
static void refuses_to_measure(const township_plat *plat) {
    township_plat no_plat = *plat;
    township_land land = land_of("sec. 14.");
    township_land part = part_of_a_lot();
    township_land other = elsewhere(land);
    township_land nowhere = land;
    township_land on_table = with_lots(part, 1);
    township_land far = with_lots(other, 1);
    township_land neither = with_lots(land, 2);
    township_fraction area = {1, 2, 3};
    const struct {
        const township_plat *plat;
        const township_land *land;
        uint32_t account;
        uint32_t verdict;
    } rows[] = {
        {&no_plat, &part, 2, TOWNSHIP_NO_PLAT},
        {plat, &part, 2, TOWNSHIP_NO_LAND},
        {plat, &nowhere, TOWNSHIP_EXACT, TOWNSHIP_NO_LAND},
        {plat, &neither, TOWNSHIP_EXACT, TOWNSHIP_NO_LAND},
        {plat, &far, 2, TOWNSHIP_NO_ACCOUNT},
        {plat, &other, TOWNSHIP_EXACT, TOWNSHIP_OTHER_TOWNSHIP},
        {plat, &far, TOWNSHIP_EXACT, TOWNSHIP_OTHER_TOWNSHIP},
        {plat, &on_table, TOWNSHIP_EXACT, TOWNSHIP_OTHER_PLAT},
    };

    no_plat.number = 0;
    nowhere.township.north_south = 2;
    for (size_t i = 0; i < COUNT(rows); i++) {
        CHECK_ANSWER(township_land_acres(rows[i].plat, rows[i].land, rows[i].account), bare(rows[i].verdict));
        CHECK_ANSWER(township_land_area(rows[i].plat, rows[i].land, rows[i].account, &area), bare(rows[i].verdict));
        CHECK(area.units_low == 1 && area.units_high == 2 && area.over == 3);
    }
}

/* A text is written at the start of a buffer, if there is room for all of it. */
static void writes_text(const township_land *land, const char *text) {
    size_t length = strlen(text);
    room *r = room_new();

    CHECK_ANSWER(township_land_text(land, room_text(r), length), with_length(TOWNSHIP_ACCEPTED, length));
    CHECK(room_holds(r, text, length));
    room_clear(r);
    if (length > 0) {
        CHECK_ANSWER(township_land_text(land, room_text(r), length - 1), with_length(TOWNSHIP_NO_ROOM, length));
        CHECK(room_holds(r, "", 0));
    }
    free(r);
}

static void writes_texts(void) {
    township_land land = land_of("sec. 14, SE1/4, NE1/4, NW1/4; sec. 5, lots 1 and 2.");
    township_land none = empty_land();
    township_land part = part_of_a_lot();
    township_land dated = of_date(land, 19120304);
    township_land on_table = with_lots(part, 1);
    township_land neither = with_lots(land, 2);
    room *r = room_new();

    writes_text(&land, "T. 2 N., R. 3 W.,\nsec. 5, lots 1, 2;\nsec. 14, N1/2, SE1/4.\n");
    writes_text(&dated, "T. 2 N., R. 3 W.,\nsec. 5, lots 1, 2;\nsec. 14, N1/2, SE1/4.\n");
    writes_text(&none, "");
    CHECK_ANSWER(township_land_text(&part, room_text(r), MOST_TEXT), bare(TOWNSHIP_NO_LAND));
    CHECK_ANSWER(township_land_text(&neither, room_text(r), MOST_TEXT), bare(TOWNSHIP_NO_LAND));
    CHECK_ANSWER(township_land_text(&on_table, room_text(r), MOST_TEXT), bare(TOWNSHIP_OTHER_PLAT));
    CHECK(room_holds(r, "", 0));
    free(r);
}

/* The whole section 8; lots 1 and 2 of section 5, from the east, in its northern row; N1/2 of section 14, SE1/4 of it,
   and its southwesternmost place. */
static void writes_parts(void) {
    static const township_part wanted[] = {
        {5, 1, 0, 24, 8, 8},    {5, 2, 8, 24, 8, 8},  {8, 0, 0, 0, 32, 32},
        {14, 0, 0, 16, 32, 16}, {14, 0, 31, 0, 1, 1}, {14, 0, 0, 0, 16, 16},
    };
    township_land land =
        land_of("sec. 14, NE1/4, NW1/4, SE1/4, SW1/4SW1/4SW1/4SW1/4SW1/4; sec. 8; sec. 5, lots 1 and 2.");
    township_land none = empty_land();
    township_land part = part_of_a_lot();
    township_land on_table = with_lots(part, 1);
    township_land neither = with_lots(land, 2);
    township_part parts[COUNT(wanted) + 1];
    township_part kept[COUNT(wanted) + 1];

    memset(parts, 0xA5, sizeof parts);
    memset(kept, 0xA5, sizeof kept);
    CHECK_ANSWER(township_land_parts(&land, parts, COUNT(wanted) - 1), with_length(TOWNSHIP_NO_ROOM, COUNT(wanted)));
    CHECK_ANSWER(township_land_parts(&part, parts, COUNT(parts)), bare(TOWNSHIP_NO_LAND));
    CHECK_ANSWER(township_land_parts(&neither, parts, COUNT(parts)), bare(TOWNSHIP_NO_LAND));
    CHECK_ANSWER(township_land_parts(&on_table, parts, COUNT(parts)), bare(TOWNSHIP_OTHER_PLAT));
    CHECK_ANSWER(township_land_parts(&none, parts, COUNT(parts)), with_length(TOWNSHIP_ACCEPTED, 0));
    CHECK(memcmp(parts, kept, sizeof parts) == 0);
    CHECK_ANSWER(township_land_parts(&land, parts, COUNT(parts)), with_length(TOWNSHIP_ACCEPTED, COUNT(wanted)));
    CHECK(memcmp(parts, wanted, sizeof wanted) == 0);
    CHECK(memcmp(&parts[COUNT(wanted)], &kept[COUNT(wanted)], sizeof *parts) == 0);
}

/* The operation makes the land of a description of two others. */
static void combines(const char *first, uint32_t operation, const char *second, const char *wanted) {
    township_land a = land_of(first);
    township_land b = land_of(second);
    township_land made = other_land();
    township_land land = wanted[0] == 0 ? empty_land() : land_of(wanted);

    CHECK_ANSWER(township_land_combine(&a, &b, operation, &made), bare(TOWNSHIP_ACCEPTED));
    CHECK(same_land(&made, &land));
}

static void combines_land(void) {
    combines("sec. 14, N1/2.", TOWNSHIP_UNION, "sec. 14, E1/2.", "sec. 14, N1/2, SE1/4.");
    combines("sec. 14, N1/2.", TOWNSHIP_INTERSECTION, "sec. 14, E1/2.", "sec. 14, NE1/4.");
    combines("sec. 14, N1/2.", TOWNSHIP_DIFFERENCE, "sec. 14, E1/2.", "sec. 14, NW1/4.");
    combines("sec. 14, E1/2.", TOWNSHIP_DIFFERENCE, "sec. 14, N1/2.", "sec. 14, SE1/4.");
    combines("sec. 5, lots 1 and 2.", TOWNSHIP_DIFFERENCE, "sec. 5, lot 1; sec. 36.", "sec. 5, lot 2.");
    combines("sec. 1; sec. 36.", TOWNSHIP_UNION, "sec. 20.", "sec. 1; sec. 20; sec. 36.");
    combines("sec. 1; sec. 36.", TOWNSHIP_INTERSECTION, "sec. 20.", "");
    combines("sec. 20.", TOWNSHIP_DIFFERENCE, "secs. 19 to 21.", "");
}

/* Of several faults, the first one is answered: of the two lands, the operation, the township, and the plat. */
static void refuses_to_combine(void) {
    township_land land = land_of("sec. 14.");
    township_land part = part_of_a_lot();
    township_land other = with_lots(elsewhere(land), 1);
    township_land neither = with_lots(other, 2);
    township_land on_table = with_lots(part, 1);
    township_land dated = of_date(land, 19120304);
    township_land made = other_land();
    uint32_t comparison = 99;

    keeps_land(township_land_combine(&part, &other, 3, &made), bare(TOWNSHIP_NO_LAND), &made);
    keeps_land(township_land_combine(&land, &part, 3, &made), bare(TOWNSHIP_NO_LAND), &made);
    keeps_land(township_land_combine(&neither, &land, 3, &made), bare(TOWNSHIP_NO_LAND), &made);
    keeps_land(township_land_combine(&land, &neither, 3, &made), bare(TOWNSHIP_NO_LAND), &made);
    keeps_land(township_land_combine(&land, &other, 3, &made), bare(TOWNSHIP_NO_OPERATION), &made);
    keeps_land(township_land_combine(&land, &other, TOWNSHIP_UNION, &made), bare(TOWNSHIP_OTHER_TOWNSHIP), &made);
    keeps_land(township_land_combine(&land, &on_table, TOWNSHIP_UNION, &made), bare(TOWNSHIP_OTHER_PLAT), &made);
    keeps_land(township_land_combine(&dated, &land, TOWNSHIP_UNION, &made), bare(TOWNSHIP_OTHER_PLAT), &made);
    CHECK_ANSWER(township_land_compare(&part, &other, &comparison), bare(TOWNSHIP_NO_LAND));
    CHECK_ANSWER(township_land_compare(&other, &part, &comparison), bare(TOWNSHIP_NO_LAND));
    CHECK_ANSWER(township_land_compare(&neither, &land, &comparison), bare(TOWNSHIP_NO_LAND));
    CHECK_ANSWER(township_land_compare(&land, &neither, &comparison), bare(TOWNSHIP_NO_LAND));
    CHECK_ANSWER(township_land_compare(&land, &other, &comparison), bare(TOWNSHIP_OTHER_TOWNSHIP));
    CHECK_ANSWER(township_land_compare(&on_table, &land, &comparison), bare(TOWNSHIP_OTHER_PLAT));
    CHECK_ANSWER(township_land_compare(&land, &dated, &comparison), bare(TOWNSHIP_OTHER_PLAT));
    CHECK(comparison == 99);
}

static void compares(const township_land *first, const township_land *second, uint32_t wanted) {
    uint32_t comparison = 99;

    CHECK_ANSWER(township_land_compare(first, second, &comparison), bare(TOWNSHIP_ACCEPTED));
    CHECK(comparison == wanted);
}

static void compares_land(void) {
    township_land north = land_of("sec. 14, N1/2.");
    township_land quarters = land_of("sec. 14, NW1/4 and NE1/4.");
    township_land east = land_of("sec. 14, E1/2.");
    township_land corner = land_of("sec. 14, NE1/4.");
    township_land south = land_of("sec. 14, S1/2; sec. 36.");
    township_land none = empty_land();

    compares(&north, &quarters, TOWNSHIP_EQUAL);
    compares(&none, &none, TOWNSHIP_EQUAL);
    compares(&north, &corner, TOWNSHIP_CONTAINS);
    compares(&corner, &north, TOWNSHIP_IS_CONTAINED);
    compares(&north, &east, TOWNSHIP_OVERLAPS);
    compares(&north, &south, TOWNSHIP_DISJOINT);
    compares(&north, &none, TOWNSHIP_CONTAINS);
    compares(&none, &north, TOWNSHIP_IS_CONTAINED);
}

void answers_land(const township_plat *plat) {
    reads_land();
    refuses_to_read();
    measures_land(plat);
    refuses_to_measure(plat);
    writes_texts();
    writes_parts();
    combines_land();
    refuses_to_combine();
    compares_land();
}
