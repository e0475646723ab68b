#include <stdlib.h>
#include <string.h>

#include "area.h"
#include "check.h"
#include "given.h"
#include "land.h"

#define COUNT(array) (sizeof(array) / sizeof *(array))

_Static_assert(sizeof(township_lots) == 13972, "a lot table has no byte between its fields");

#define HEADING "section,lot,acres\n"
#define TABLE HEADING "T,2,N,3,W\n5,1,40.45\n5,2,40.55\n6,7,36.86\n"

static township_answer read_lots(bytes table, township_lots *lots) {
    return township_lots_read(table.at, table.length, lots);
}

township_lots table_of(const char *text) {
    bytes table = bytes_of(text);
    township_lots lots;

    CHECK_ANSWER(read_lots(table, &lots), bare(TOWNSHIP_ACCEPTED));
    drop(table);
    return lots;
}

/* The lots of a regular township: four in each of sections 1 to 5, 7, 18, 19, 30, and 31, and seven in section 6. */
static township_lots regular_lots(void) {
    static const char counts[TOWNSHIP_SECTIONS + 1] = "444447400000000004400000000004400000";
    township_lots lots;
    uint16_t index = 0;

    memset(&lots, 0, sizeof lots);
    for (size_t section = 0; section < TOWNSHIP_SECTIONS; section++) {
        lots.first[section] = index;
        for (uint8_t lot = 1; lot <= counts[section] - '0'; lot++) {
            lots.numbers[index++] = lot;
        }
    }
    lots.first[TOWNSHIP_SECTIONS] = index;
    lots.township = (township_designation){2, TOWNSHIP_NORTH, 3, TOWNSHIP_WEST};
    return lots;
}

/* Sections 1 to 4 have four lots each, so lot 1 of section 5 is the 17th; lot 7 of section 6 is the 27th. */
static void reads_lots(void) {
    township_lots lots = table_of(TABLE);
    township_lots wanted = regular_lots();

    wanted.figures[16] = 4045;
    wanted.figures[17] = 4055;
    wanted.figures[26] = 3686;
    CHECK(memcmp(&lots, &wanted, sizeof lots) == 0);
    /* The last lot of all is lot 4 of section 31. */
    lots = table_of(HEADING "T,99,S,1,E\n31,4,999.99\n");
    CHECK(lots.figures[46] == 99999 && lots.township.number == 99 && lots.township.east_west == TOWNSHIP_EAST);
}

static void refuses_table(bytes table, uint32_t number, uint32_t at) {
    township_lots lots, kept;

    memset(&lots, 0xA5, sizeof lots);
    memset(&kept, 0xA5, sizeof kept);
    CHECK_ANSWER(read_lots(table, &lots), refused(number, at));
    CHECK(memcmp(&lots, &kept, sizeof lots) == 0);
    drop(table);
}

static void refuses_tables(void) {
    refuses_table(padded(TABLE, '\n', TOWNSHIP_LOTS_TEXT_MOST + 1), TOWNSHIP_REFUSAL_LOTS_TOO_LARGE, 65536);
    refuses_table(bytes_of(""), TOWNSHIP_REFUSAL_LOTS_EMPTY, 1);
    refuses_table(bytes_of("section,lot,area\n"), TOWNSHIP_REFUSAL_LOTS_HEADING, 1);
    refuses_table(bytes_of(HEADING "T,2,N\n"), TOWNSHIP_REFUSAL_LOTS_COLUMNS, 2);
    refuses_table(bytes_of(HEADING "T,2,N,3,W\n5,1\n"), TOWNSHIP_REFUSAL_LOTS_COLUMNS, 3);
    refuses_table(bytes_of(HEADING "T,2,N,100,W\n"), TOWNSHIP_REFUSAL_LOTS_TOWNSHIP, 2);
    refuses_table(bytes_of(HEADING "T,2,N,3,W\n14,1,40.00\n"), TOWNSHIP_REFUSAL_LOTS_NO_LOT, 3);
    refuses_table(bytes_of(HEADING "T,2,N,3,W\n5,1,40.4\n"), TOWNSHIP_REFUSAL_LOTS_ACRES, 3);
    refuses_table(bytes_of(TABLE "5,1,40.45\n"), TOWNSHIP_REFUSAL_LOTS_REPEATED, 6);
}

/* The plain table of a text is this one, whose own plain table is the same. If there is less room, nothing is
   written. */
static void makes_plain(const char *text, const char *wanted) {
    bytes table = bytes_of(text), plain = bytes_of(wanted);
    uint8_t made[256], kept[256];
    township_answer answer;

    memset(made, 0xA5, sizeof made);
    memset(kept, 0xA5, sizeof kept);
    if (plain.length > 0) {
        answer = township_lots_plain(table.at, table.length, made, plain.length - 1);
        CHECK(answer.verdict == TOWNSHIP_NO_ROOM && answer.length == plain.length);
        CHECK(memcmp(made, kept, sizeof made) == 0);
    }
    answer = township_lots_plain(table.at, table.length, made, sizeof made);
    CHECK(answer.verdict == TOWNSHIP_ACCEPTED && answer.length == plain.length);
    CHECK(memcmp(made, plain.at, plain.length) == 0);
    CHECK(memcmp(made + plain.length, kept, sizeof made - plain.length) == 0);
    answer = township_lots_plain(plain.at, plain.length, made, sizeof made);
    CHECK(answer.length == plain.length && memcmp(made, plain.at, plain.length) == 0);
    drop(table);
    drop(plain);
}

static void makes_plain_tables(void) {
    township_lots lots;
    bytes plain;

    /* Empty cells at the end of a row, an empty row, and fewer decimals. */
    makes_plain(HEADING "T,2,N,3,W\n5,1,40.45\n", HEADING "T,2,N,3,W\n5,1,40.45\n");
    makes_plain("section,lot,acres,,\nT,2,N,3,W\n,,,,\n5,1,40.5,,\n5,2,40,,",
                HEADING "T,2,N,3,W\n\n5,1,40.50\n5,2,40.00");
    /* Semicolons and tabs, line ends of Windows, and a byte order mark. */
    makes_plain("section;lot;acres;;\r\nT;2;N;3;W\r\n5;1;40,5;;\r\n",
                "section,lot,acres\r\nT,2,N,3,W\r\n5,1,\"40,5\"\r\n");
    makes_plain("section\tlot\tacres\n5\t1\t40.5\t\n", HEADING "5,1,40.50\n");
    makes_plain("\xEF\xBB\xBF\"section\",\"lot\",\"acres\"\n", "\xEF\xBB\xBF" HEADING);
    /* Quotation marks that are needed stay; lines within a quoted cell, and those whose marks don't pair, too. */
    makes_plain("a,b,5,\"x, \"\"y\"\"\",\n", "a,b,5.00,\"x, \"\"y\"\"\"\n");
    makes_plain("a,b\n5,1,40,\"x\n5,1,40,\ny\",\n5,2,40,\n", "a,b\n5,1,40,\"x\n5,1,40,\ny\",\n5,2,40.00\n");
    makes_plain("a;b\n\"5\",1,40.5\n5;1;40\"\n", "a,b\n5,1,40.50\n5;1;40\"\n");
    /* Other numbers stay as they are, and so does an empty cell between others. */
    makes_plain("5,1,40.450,\n5,1,40.,\n5,1,.5,\n5,1, 40,\n5,,40,\n5,1,,x\n",
                "5,1,40.450\n5,1,40.\n5,1,.5\n5,1, 40\n5,,40.00\n5,1,,x\n");
    makes_plain("", "");
    makes_plain("\"a;b\",,\n", "\"a;b\"\n");
    /* The plain table is the one that is read: the strict reader refuses the other. */
    refuses_table(bytes_of("section,lot,acres,,\nT,2,N,3,W\n"), TOWNSHIP_REFUSAL_LOTS_HEADING, 1);
    plain = bytes_of(HEADING "T,2,N,3,W\n");
    CHECK_ANSWER(read_lots(plain, &lots), bare(TOWNSHIP_ACCEPTED));
    drop(plain);
}

static township_answer acres_by(const township_lots *lots, const char *text) {
    bytes description = bytes_of(text);
    township_answer answer = township_lots_acres(lots, description.at, description.length);

    drop(description);
    return answer;
}

static township_answer area_by(const township_lots *lots, const char *text, township_fraction *area) {
    bytes description = bytes_of(text);
    township_answer answer = township_lots_area(lots, description.at, description.length, area);

    drop(description);
    return answer;
}

/* All four calls give the same acreage to a description and to its land. */
static void measures(const township_lots *lots, const char *text, uint64_t hundredths) {
    township_land land = land_of(text);
    township_fraction area = {1, 2, 3}, other = {1, 2, 3};

    CHECK_ANSWER(acres_by(lots, text), acres(hundredths));
    CHECK_ANSWER(township_lots_land_acres(lots, &land), acres(hundredths));
    CHECK_ANSWER(area_by(lots, text, &area), bare(TOWNSHIP_ACCEPTED));
    CHECK_ANSWER(township_lots_land_area(lots, &land, &other), bare(TOWNSHIP_ACCEPTED));
    CHECK(hundredths_of(area) == hundredths && memcmp(&area, &other, sizeof area) == 0);
}

/* The calls on a description refuse it, and write nothing. */
static void refuses_text(const township_lots *lots, const char *text, township_answer wanted) {
    township_fraction area = {1, 2, 3};

    CHECK_ANSWER(acres_by(lots, text), wanted);
    CHECK_ANSWER(area_by(lots, text, &area), wanted);
    CHECK(area.units_low == 1 && area.units_high == 2 && area.over == 3);
}

static void refuses_land(const township_lots *lots, const township_land *land, township_answer wanted) {
    township_fraction area = {1, 2, 3};

    CHECK_ANSWER(township_lots_land_acres(lots, land), wanted);
    CHECK_ANSWER(township_lots_land_area(lots, land, &area), wanted);
    CHECK(area.units_low == 1 && area.units_high == 2 && area.over == 3);
}

static void measures_land(void) {
    township_lots lots = table_of(TABLE);
    township_land lot = land_of("sec. 5, lot 1.");
    township_fraction area;

    /* 40.45 + 40.55 + 80 acres. */
    measures(&lots, "sec. 5, lots 1 and 2, S1/2NE1/4.", 16100);
    measures(&lots, "sec. 14.", 64000);
    /* 1/1,024 of a section is 0.625 acre, which is rounded half up. */
    measures(&lots, "sec. 14, NE1/4NE1/4NE1/4NE1/4NE1/4.", 63);
    CHECK_ANSWER(township_lots_land_area(&lots, &lot, &area), bare(TOWNSHIP_ACCEPTED));
    CHECK(area.units_low == 404500000 && area.units_high == 0 && area.over == 1);
}

/* The refusal of a lot that the table lacks is at 100 times its section, plus its number. */
static void refuses_lacking(void) {
    township_lots lots = table_of(TABLE);
    const struct {
        const char *text;
        uint32_t at;
    } rows[] = {
        {"sec. 5, lot 3.", 503},
        {"sec. 6, lots 6 and 7; sec. 5, lots 1, 2, 4.", 504},
        {"sec. 5, all.", 503},
        {"sec. 31, lot 4.", 3104},
    };

    for (size_t i = 0; i < COUNT(rows); i++) {
        township_land land = land_of(rows[i].text);

        refuses_text(&lots, rows[i].text, refused(TOWNSHIP_REFUSAL_LOTS_LACKING, rows[i].at));
        refuses_land(&lots, &land, refused(TOWNSHIP_REFUSAL_LOTS_LACKING, rows[i].at));
    }
    refuses_text(&lots, "sec. 14, NE1/4 and N1/2.", refused(67, 19));
    refuses_text(&lots, "T. 2 N., R. 4 W., sec. 14.", refused(61, 0));
}

static void refuses_lots(void) {
    township_lots lots = table_of(TABLE);
    township_lots much = lots;
    township_lots nowhere = lots;
    township_land land = land_of("sec. 14.");
    township_land part = land;
    township_land other = land;

    /* More than 999.99 acres are none. */
    much.figures[46] = 100000;
    refuses_text(&much, "sec. 31, lot 4.", refused(TOWNSHIP_REFUSAL_LOTS_LACKING, 3104));
    measures(&much, "sec. 14.", 64000);
    nowhere.township.number = 0;
    part.rows[1 - 1][31] = 1;
    other.township.range = 4;
    refuses_text(&nowhere, "", bare(TOWNSHIP_NO_LOTS));
    refuses_text(&nowhere, "sec. 14.", bare(TOWNSHIP_NO_LOTS));
    refuses_land(&nowhere, &part, bare(TOWNSHIP_NO_LOTS));
    refuses_land(&lots, &part, bare(TOWNSHIP_NO_LAND));
    refuses_land(&lots, &other, bare(TOWNSHIP_OTHER_TOWNSHIP));
}

/* Section 14 of a plat: lot 1 is its NE1/4NE1/4, and its NW1/4NW1/4 isn't there. Its N1/2NW1/4NE1/4 is lot 2, and the
   rest of that quarter-quarter lot 5. The plat has no other lots. */
static township_lots lots_of_lake(void) {
    static const uint32_t figures[] = {3850, 1225, 1980};
    static const uint8_t numbers[] = {1, 2, 5};
    township_lots lots;

    memset(&lots, 0, sizeof lots);
    memcpy(lots.figures, figures, sizeof figures);
    memcpy(lots.numbers, numbers, sizeof numbers);
    for (size_t section = 14; section <= TOWNSHIP_SECTIONS; section++) {
        lots.first[section] = COUNT(numbers);
    }
    /* The northern row of quarter-quarters is the last one, and is counted from the east. */
    lots.positions[(14 - 1) * 16 + 12] = 1;
    lots.positions[(14 - 1) * 16 + 13] = 101;
    lots.positions[(14 - 1) * 16 + 15] = 100;
    /* Four rows of eight places in the south, and four in the north. */
    memset(lots.divided, 5, 32);
    memset(lots.divided + 32, 2, 32);
    lots.mapped = 1;
    lots.date = 19120304;
    lots.township = (township_designation){2, TOWNSHIP_NORTH, 3, TOWNSHIP_WEST};
    return lots;
}

static void measures_by_any_plat(void) {
    township_lots lots = lots_of_lake();
    township_fraction area;
    township_land part = land_of("sec. 14, N1/2NW1/4NE1/4NE1/4.");
    township_land half = part;

    half.date = lots.date;
    half.own_lots = 1;
    CHECK_ANSWER(acres_by(&lots, "sec. 14, lot 1."), acres(3850));
    CHECK_ANSWER(acres_by(&lots, "sec. 14, lots 2 and 5."), acres(1225 + 1980));
    /* 16 quarter-quarters, of which one isn't there, and two are lots. */
    CHECK_ANSWER(acres_by(&lots, "sec. 14."), acres(13 * 4000 + 3850 + 1225 + 1980));
    CHECK_ANSWER(acres_by(&lots, "sec. 5, NE1/4."), acres(16000));
    CHECK_ANSWER(area_by(&lots, "sec. 14, lot 2.", &area), bare(TOWNSHIP_ACCEPTED));
    CHECK(hundredths_of(area) == 1225);
    /* A lot that there isn't, and a part with a lot. */
    refuses_text(&lots, "sec. 14, lot 3.", refused(64, 13));
    refuses_text(&lots, "sec. 5, lot 1.", refused(64, 12));
    refuses_text(&lots, "sec. 14, NE1/4.", refused(66, 9));
    lots.figures[1] = 0;
    refuses_text(&lots, "sec. 14, lots 2 and 5.", refused(TOWNSHIP_REFUSAL_LOTS_LACKING, 1402));
    /* Land with part of lot 1 is none on this plat; land that was read without a table is on another. */
    refuses_land(&lots, &half, bare(TOWNSHIP_NO_LAND));
    refuses_land(&lots, &part, bare(TOWNSHIP_OTHER_PLAT));
}

/* Room for tracts, with one more after it. */
typedef struct tracts_by_lots {
    township_tract tracts[3];
} tracts_by_lots;

static tracts_by_lots blank_tracts(void) {
    tracts_by_lots made;

    memset(&made, NEVER, sizeof made);
    return made;
}

static township_answer report_by(const township_lots *lots, const char *text, tracts_by_lots *to, size_t room) {
    bytes list = bytes_of(text);
    township_answer answer = township_lots_report(lots, list.at, list.length, to->tracts, room);

    drop(list);
    return answer;
}

static bool is_tract_by_lots(const township_tract *tract, const char *name, uint64_t hundredths) {
    char wanted[TOWNSHIP_NAME_ROOM] = {0};

    memcpy(wanted, name, strlen(name));
    return tract->hundredths == hundredths && tract->name_length == strlen(name) &&
           memcmp(tract->name, wanted, sizeof wanted) == 0;
}

/* An answer with this total, in hundredths of an acre, and this number of tracts. */
static township_answer totaled(uint32_t verdict, uint64_t hundredths, size_t count) {
    township_answer answer = with_length(verdict, count);

    answer.hundredths = hundredths;
    return answer;
}

#define LIST "name,description\n"

static void reports_tracts(void) {
    township_lots lots = table_of(TABLE);
    tracts_by_lots none = blank_tracts();
    tracts_by_lots found = none;
    /* 40.45 acres; 40.55 and 80 acres. */
    static const char *const two = LIST "A,\"sec. 5, lot 1.\"\n\"the \"\"old\"\" place\",\"sec. 5, lot 2, S1/2NE1/4.\"\n";
    /* Each has 5/8 of an acre, 0.63 rounded; together they have 1.25. */
    static const char *const smallest = LIST "A,\"sec. 14, NE1/4NE1/4NE1/4NE1/4NE1/4.\"\n"
                                             "B,\"sec. 14, NW1/4NE1/4NE1/4NE1/4NE1/4.\"\n";

    CHECK_ANSWER(report_by(&lots, two, &found, 2), totaled(TOWNSHIP_ACCEPTED, 16100, 2));
    CHECK(is_tract_by_lots(&found.tracts[0], "A", 4045));
    CHECK(is_tract_by_lots(&found.tracts[1], "the \"old\" place", 12055));
    CHECK(memcmp(&found.tracts[2], &none.tracts[2], sizeof found.tracts[2]) == 0);
    CHECK_ANSWER(report_by(&lots, smallest, &found, 3), totaled(TOWNSHIP_ACCEPTED, 125, 2));
    CHECK(is_tract_by_lots(&found.tracts[0], "A", 63) && is_tract_by_lots(&found.tracts[1], "B", 63));

    found = none;
    CHECK_ANSWER(report_by(&lots, LIST, &found, 0), totaled(TOWNSHIP_ACCEPTED, 0, 0));
    for (size_t room = 0; room < 2; room++) {
        CHECK_ANSWER(report_by(&lots, two, &found, room), totaled(TOWNSHIP_NO_ROOM, 16100, 2));
    }
    CHECK(memcmp(&found, &none, sizeof found) == 0);
}

/* The first fault of a list is that of township_account, but a lot that the table lacks is one of its tract. */
static void refuses_lists(void) {
    township_lots lots = table_of(TABLE);
    township_lots nowhere = lots;
    tracts_by_lots none = blank_tracts();
    const struct {
        const char *list;
        township_answer wanted;
    } rows[] = {
        {"", refused(81, 1)},
        {"name;description\n", refused(81, 1)},
        {LIST "A,sec. 5, lot 1.\n", refused(81, 2)},
        {LIST "A,sec. 14.\nA,\"sec. 5, lot 3.\"\n", refused(82, 3)},
        {LIST "A,\"sec. 14, NE1/4 and N1/2.\"\nB,\"sec. 5, lot 3.\"\n", tract_refused(2, 67, 19)},
        {LIST "A,\"sec. 5, lot 5.\"\n", tract_refused(2, 64, 12)},
        {LIST "A,sec. 14.\nB,\"sec. 14, NE1/4.\"\nC,\"sec. 5, lot 3.\"\n", refused(84, 3)},
        {LIST "A,\"sec. 5, lots 1 and 3.\"\nA,sec. 14.\n", tract_refused(2, 94, 503)},
        {LIST "A,sec. 14.\nB,\"sec. 14; sec. 31, lot 4.\"\n", tract_refused(3, 94, 3104)},
        {LIST "A,sec. 14.\nB,\"sec. 15; sec. 6, lots 6 and 7.\"\nA,sec. 16.\n", tract_refused(3, 94, 606)},
    };

    for (size_t i = 0; i < COUNT(rows); i++) {
        tracts_by_lots found = none;

        CHECK_ANSWER(report_by(&lots, rows[i].list, &found, 3), rows[i].wanted);
        CHECK(memcmp(&found, &none, sizeof found) == 0);
    }
    nowhere.township.range = 0;
    CHECK_ANSWER(report_by(&nowhere, LIST, &none, 3), bare(TOWNSHIP_NO_LOTS));
}

void answers_lots(void) {
    reads_lots();
    refuses_tables();
    makes_plain_tables();
    measures_land();
    refuses_lacking();
    refuses_lots();
    measures_by_any_plat();
    reports_tracts();
    refuses_lists();
}
