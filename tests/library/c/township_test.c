/*
 * Tries every function of township.h: `township_test SAMPLES VERSION [ROUNDS]`, with the folder of the samples,
 * the version that the library should have, and how many times each of four threads calls all of them.
 */
#include <stdlib.h>
#include <string.h>

#include "area.h"
#include "check.h"
#include "explanations.h"
#include "given.h"
#include "land.h"
#include "lists.h"
#include "many.h"
#include "threads.h"

_Static_assert(sizeof(township_plat) == 340, "a plat has 340 bytes");
_Static_assert(sizeof(township_answer) == 48, "an answer has 48 bytes");
_Static_assert(sizeof(township_fraction) == 24, "a fraction has 24 bytes");
_Static_assert(sizeof(township_plat_figures) == 2312, "the figures have 7 * 36 + 36 + 1 numbers");
_Static_assert(offsetof(township_plat, number) == 336, "a township follows the 84 lines");
_Static_assert(offsetof(township_answer, hundredths) == 32, "hundredths follow eight words");

#define COUNT(array) (sizeof(array) / sizeof *(array))

#define ONE_LOT "sec. 5, lot 1."
#define NAMED_TWICE "sec. 14, NE1/4 and N1/2."

static township_answer acres_of(const township_plat *plat, const char *text, uint32_t account) {
    bytes description = bytes_of(text);
    township_answer answer = township_acres(plat, description.at, description.length, account);

    drop(description);
    return answer;
}

static township_answer area_of(const township_plat *plat, const char *text, uint32_t account,
                               township_fraction *area) {
    bytes description = bytes_of(text);
    township_answer answer = township_area(plat, description.at, description.length, account, area);

    drop(description);
    return answer;
}

static township_answer notes_plat(bytes notes, township_plat *plat) {
    return township_read(notes.at, notes.length, plat);
}

/* The calls that write a text, each with the same words, so that a table can name them. */
typedef township_answer writer(const township_plat *plat, bytes input, uint8_t *text, size_t size);

static township_answer write_normal(const township_plat *plat, bytes input, uint8_t *text, size_t size) {
    return township_normal(plat, input.at, input.length, text, size);
}

static township_answer write_print(const township_plat *plat, bytes input, uint8_t *text, size_t size) {
    (void)input;
    return township_print(plat, text, size);
}

static township_answer write_notes(const township_plat *plat, bytes input, uint8_t *text, size_t size) {
    (void)input;
    return township_write_notes(plat, text, size);
}

static township_answer write_report(const township_plat *plat, bytes input, uint8_t *text, size_t size) {
    return township_report(plat, input.at, input.length, text, size);
}

static township_answer explain_notes(const township_plat *plat, bytes input, uint8_t *text, size_t size) {
    (void)plat;
    return township_explain_notes(input.at, input.length, (const uint8_t *)"notes.csv", 9, text, size);
}

static township_answer explain_land(const township_plat *plat, bytes input, uint8_t *text, size_t size) {
    return township_explain_description(plat, input.at, input.length, (const uint8_t *)"land.txt", 8, text, size);
}

static township_answer explain_list(const township_plat *plat, bytes input, uint8_t *text, size_t size) {
    return township_explain_list(plat, input.at, input.length, (const uint8_t *)"tracts.csv", 10, text, size);
}

static township_answer write_version(const township_plat *plat, bytes input, uint8_t *text, size_t size) {
    (void)plat;
    (void)input;
    return township_version(text, size);
}

/*
 * A text is written whole, at the start of a large buffer and into one of exactly its length; into a smaller one
 * nothing is written, and its length is returned.
 */
static void check_text(writer *call, const township_plat *plat, bytes input, township_answer wanted,
                       const char *text) {
    size_t length = strlen(text);
    size_t sizes[] = {0, 1, length / 2, length - 1};
    room *r = room_new();
    township_answer answer;

    wanted.length = length;
    CHECK_ANSWER(call(plat, input, room_text(r), MOST_TEXT), wanted);
    CHECK(room_holds(r, text, length));
    room_clear(r);
    CHECK_ANSWER(call(plat, input, room_text(r), length), wanted);
    CHECK(room_holds(r, text, length));
    room_clear(r);
    for (size_t i = 0; i < COUNT(sizes); i++) {
        answer = call(plat, input, room_text(r), sizes[i]);
        CHECK(answer.verdict == TOWNSHIP_NO_ROOM && answer.length == length);
        CHECK(answer.hundredths == 0 && answer.reserved == 0);
    }
    CHECK(room_holds(r, "", 0));
    free(r);
}

/* A call without a text gives this answer for any buffer, and writes nothing. */
static void check_no_text(writer *call, const township_plat *plat, bytes input, township_answer wanted) {
    room *r = room_new();

    CHECK_ANSWER(call(plat, input, room_text(r), MOST_TEXT), wanted);
    CHECK_ANSWER(call(plat, input, room_text(r), 0), wanted);
    CHECK(room_holds(r, "", 0));
    free(r);
}

static void has_acres(const township_plat *plat) {
    CHECK_ANSWER(acres_of(plat, ONE_LOT, TOWNSHIP_EXACT), acres(4045));
    CHECK_ANSWER(acres_of(plat, "sec. 5, lots 1 and 2, S1/2NE1/4.", TOWNSHIP_EXACT), acres(16100));
    CHECK_ANSWER(acres_of(plat, "sec. 7, lots 1 to 4, inclusive.", TOWNSHIP_EXACT), acres(15640));
    CHECK_ANSWER(acres_of(plat, "sec. 7, lots 1 to 4, inclusive.", TOWNSHIP_BY_PLAT), acres(15642));
    CHECK_ANSWER(acres_of(plat, "secs. 1 thru 36, all.", TOWNSHIP_EXACT), acres(2303757));
}

/* `numerator` over `denominator` acres, which are whole units. */
static void check_area(const township_plat *plat, const char *text, uint64_t numerator, uint64_t denominator) {
    township_fraction area = {1, 1, 0};

    CHECK_ANSWER(area_of(plat, text, TOWNSHIP_EXACT, &area), bare(TOWNSHIP_ACCEPTED));
    CHECK(area.over >= 1);
    CHECK(whole_units_of(area).rest == 0);
    CHECK(whole_units_of(area).units * denominator == numerator * 10000000);
}

static void has_areas(const township_plat *plat) {
    township_fraction area = {1, 1, 0};

    check_area(plat, ONE_LOT, 809, 20);
    check_area(plat, "sec. 7, lot 1.", 1567, 40);
    check_area(plat, "sec. 14, NE1/4NE1/4NE1/4NE1/4NE1/4.", 5, 8);
    CHECK_ANSWER(area_of(plat, "sec. 7, lot 1.", TOWNSHIP_BY_PLAT, &area), bare(TOWNSHIP_ACCEPTED));
    CHECK(whole_units_of(area).rest == 0 && whole_units_of(area).units == 391800000);
}

static void keeps_area(township_answer answer, township_answer wanted, township_fraction area) {
    CHECK_ANSWER(answer, wanted);
    CHECK(area.units_low == 1 && area.units_high == 2 && area.over == 3);
}

/* A description, and the number and place of its refusal. */
static const struct {
    const char *text;
    uint32_t number;
    uint32_t at;
} refused_descriptions[] = {
    {"", 44, 0},
    {"secs. 14-15.", 42, 8},
    {"sec. 10000.", 43, 5},
    {"sec. 14,", 44, 8},
    {"T. 2 N., R. 3 E., sec. 14.", 61, 0},
    {"sec. 37.", 62, 5},
    {"secs. 9 to 4.", 63, 11},
    {"sec. 5, lot 5.", 64, 12},
    {"sec. 14, N1/2NE1/4NE1/4NE1/4NE1/4NE1/4.", 65, 9},
    {"sec. 5, N1/2.", 66, 8},
    {NAMED_TWICE, 67, 19},
};

static void refuses_description(const township_plat *plat, bytes description, township_answer wanted) {
    township_fraction area = {1, 2, 3};

    CHECK_ANSWER(township_acres(plat, description.at, description.length, TOWNSHIP_EXACT), wanted);
    CHECK_ANSWER(township_acres(plat, description.at, description.length, TOWNSHIP_BY_PLAT), wanted);
    keeps_area(township_area(plat, description.at, description.length, TOWNSHIP_EXACT, &area), wanted, area);
    check_no_text(write_normal, plat, description, wanted);
}

static void refuses_descriptions(const township_plat *plat) {
    for (size_t i = 0; i < COUNT(refused_descriptions); i++) {
        bytes description = bytes_of(refused_descriptions[i].text);

        refuses_description(plat, description, refused(refused_descriptions[i].number, refused_descriptions[i].at));
        drop(description);
    }
}

/* None of these bytes are read: they are not part of the input. */
static void takes_no_bytes(const township_plat *plat) {
    township_plat kept = *plat;
    bytes none = bytes_of("");

    CHECK_ANSWER(notes_plat(none, &kept), refused(2, 1));
    CHECK(memcmp(&kept, plat, sizeof kept) == 0);
    refuses_description(plat, none, refused(44, 0));
    check_no_text(write_report, plat, none, refused(81, 1));
    drop(none);
    CHECK_ANSWER(township_acres(plat, (const uint8_t *)ONE_LOT, 0, TOWNSHIP_EXACT), refused(44, 0));
}

/* The longest of each input, and one byte more. */
static void has_limits(const township_plat *plat, const township_plat *even) {
    bytes land = padded("sec. 14.", ' ', TOWNSHIP_DESCRIPTION_MOST);
    bytes long_land = padded("sec. 14.", ' ', TOWNSHIP_DESCRIPTION_MOST + 1);
    bytes long_notes = padded("", '\n', TOWNSHIP_NOTES_MOST + 1);
    bytes list = padded("name,description\n", '\n', TOWNSHIP_LIST_MOST);
    bytes long_list = padded("name,description\n", '\n', TOWNSHIP_LIST_MOST + 1);
    township_plat kept = *even;

    CHECK_ANSWER(township_acres(plat, land.at, land.length, TOWNSHIP_EXACT), acres(64000));
    refuses_description(plat, long_land, refused(41, TOWNSHIP_DESCRIPTION_MOST));
    CHECK_ANSWER(notes_plat(long_notes, &kept), refused(1, TOWNSHIP_NOTES_MOST));
    CHECK(memcmp(&kept, even, sizeof kept) == 0);
    check_text(write_report, plat, list, bare(TOWNSHIP_ACCEPTED), "total: 0.00 acres\nremaining: 23037.57 acres\n");
    check_no_text(write_report, plat, long_list, refused(80, TOWNSHIP_LIST_MOST));
    drop(land);
    drop(long_land);
    drop(long_notes);
    drop(list);
    drop(long_list);
}

static void reads_notes(const char *samples, bytes notes, const township_plat *plat) {
    bytes even_notes = bytes_of_file(samples, "b0.csv");
    bytes missing = without_lines(notes, "W,6,7,");
    township_plat read = even_plat();
    township_plat even = even_plat();

    CHECK_ANSWER(notes_plat(notes, &read), bare(TOWNSHIP_ACCEPTED));
    CHECK(memcmp(&read, plat, sizeof read) == 0);
    CHECK_ANSWER(notes_plat(missing, &read), refused(11, 53));
    CHECK(memcmp(&read, plat, sizeof read) == 0);
    CHECK_ANSWER(notes_plat(even_notes, &read), bare(TOWNSHIP_ACCEPTED));
    CHECK(memcmp(&read, &even, sizeof read) == 0);
    drop(even_notes);
    drop(missing);
}

/* The notes that are written for a plat make it again. Those of the even township are its sample. */
static void writes_notes(const char *samples, const township_plat *plat, const township_plat *even) {
    bytes even_notes = bytes_of_file(samples, "b0.csv");
    char *text = calloc(MOST_TEXT + 1, 1);
    township_plat again = *even;
    township_answer answer = township_write_notes(plat, (uint8_t *)text, MOST_TEXT);

    CHECK_ANSWER(answer, with_length(TOWNSHIP_ACCEPTED, strlen(text)));
    CHECK_ANSWER(township_read((uint8_t *)text, strlen(text), &again), bare(TOWNSHIP_ACCEPTED));
    CHECK(memcmp(&again, plat, sizeof again) == 0);
    check_text(write_notes, plat, (bytes){NULL, 0}, bare(TOWNSHIP_ACCEPTED), text);

    memset(text, 0, MOST_TEXT);
    answer = township_write_notes(even, (uint8_t *)text, MOST_TEXT);
    CHECK(answer.length == even_notes.length && memcmp(text, even_notes.at, even_notes.length) == 0);
    free(text);
    drop(even_notes);
}

static void writes_normal(const township_plat *plat) {
    bytes parts = bytes_of("sec. 14, SE1/4, NE1/4, NW1/4.");

    check_text(write_normal, plat, parts, bare(TOWNSHIP_ACCEPTED), "T. 2 N., R. 3 W.,\nsec. 14, N1/2, SE1/4.\n");
    drop(parts);
}

static void prints(const township_plat *plat) {
    static const char front[] = "sec. 1: lot 1 40.00, lot 2 40.00, lot 3 40.00, lot 4 40.00, total 640.00\n";
    static const char back[] = "sec. 36: total 640.00\ntownship total 23037.57\n";
    char *text = calloc(MOST_TEXT + 1, 1);
    township_answer answer = township_print(plat, (uint8_t *)text, MOST_TEXT);

    CHECK_ANSWER(answer, with_length(TOWNSHIP_ACCEPTED, strlen(text)));
    CHECK(strncmp(text, front, strlen(front)) == 0);
    CHECK(strlen(text) > strlen(back) && strcmp(text + strlen(text) - strlen(back), back) == 0);
    check_text(write_print, plat, (bytes){NULL, 0}, bare(TOWNSHIP_ACCEPTED), text);
    free(text);
}

static void reports(const char *samples, const township_plat *plat) {
    bytes list = bytes_of_file(samples, "tracts.csv");

    check_text(write_report, plat, list, bare(TOWNSHIP_ACCEPTED),
               "tract A: 39.18 acres\ntract B: 39.03 acres\ntotal: 78.20 acres\nremaining: 22959.37 acres\n");
    drop(list);
}

/* The number of lots of a section. */
static uint32_t lots_of(uint32_t section) {
    bool is_northern = section <= 6;
    bool is_western = section == 6 || section == 7 || section == 18 || section == 19 || section == 30 ||
                      section == 31;

    return is_northern && is_western ? 7 : is_northern || is_western ? 4 : 0;
}

/* Figures are those that townships_acres gives to the same land, and 0 for lots that are not there. */
static void has_figures(const township_plat *plat) {
    township_plat_figures figures;
    char text[64];

    memset(&figures, 0xFE, sizeof figures);
    CHECK_ANSWER(township_figures(plat, &figures), bare(TOWNSHIP_ACCEPTED));
    CHECK(figures.lots[5 - 1][1 - 1] == 4045 && figures.lots[5 - 1][2 - 1] == 4055);
    CHECK(figures.lots[7 - 1][1 - 1] == 3918 && figures.lots[7 - 1][4 - 1] == 3903);
    CHECK(figures.sections[5 - 1] == 64240 && figures.sections[36 - 1] == 64000);
    CHECK(figures.township == 2303757);
    for (uint32_t section = 1; section <= TOWNSHIP_SECTIONS; section++) {
        snprintf(text, sizeof text, "sec. %u, all.", section);
        CHECK_ANSWER(acres_of(plat, text, TOWNSHIP_EXACT), acres(figures.sections[section - 1]));
        for (uint32_t lot = 1; lot <= TOWNSHIP_LOTS_MOST; lot++) {
            uint64_t figure = figures.lots[section - 1][lot - 1];

            snprintf(text, sizeof text, "sec. %u, lot %u.", section, lot);
            if (lot <= lots_of(section)) {
                CHECK_ANSWER(acres_of(plat, text, TOWNSHIP_EXACT), acres(figure));
            } else {
                CHECK(figure == 0 && acres_of(plat, text, TOWNSHIP_EXACT).number == 64);
            }
        }
    }
}

/* Answers descriptions one by one, and all by one call: the answers are the same. */
static void answers_many(const township_plat *plat) {
    static const char *const texts[] = {ONE_LOT, NAMED_TWICE, "", "sec. 7, lots 1 to 4.", "secs. 14-15."};
    township_answer answers[COUNT(texts) + 1];
    size_t offsets[COUNT(texts) + 1] = {0};
    char row[256] = "";
    bytes all;

    for (size_t i = 0; i < COUNT(texts); i++) {
        strcat(row, texts[i]);
        offsets[i + 1] = strlen(row);
    }
    all = bytes_of(row);
    for (uint32_t account = TOWNSHIP_EXACT; account <= TOWNSHIP_BY_PLAT; account++) {
        answers[COUNT(texts)] = bare(99);
        CHECK_ANSWER(township_acres_many(plat, all.at, all.length, offsets, COUNT(offsets), account, answers,
                                         COUNT(answers)),
                     with_length(TOWNSHIP_ACCEPTED, COUNT(texts)));
        for (size_t i = 0; i < COUNT(texts); i++) {
            CHECK_ANSWER(answers[i], acres_of(plat, texts[i], account));
        }
        CHECK_ANSWER(answers[COUNT(texts)], bare(99));
    }
    answers[0] = bare(99);
    CHECK_ANSWER(township_acres_many(plat, all.at, all.length, offsets, COUNT(offsets), TOWNSHIP_EXACT, answers,
                                     COUNT(texts) - 1),
                 with_length(TOWNSHIP_NO_ROOM, COUNT(texts)));
    CHECK_ANSWER(answers[0], bare(99));
    /* No such account: each answer says so, and so does the verdict. */
    CHECK_ANSWER(township_acres_many(plat, all.at, all.length, offsets, COUNT(offsets), 2, answers,
                                     COUNT(answers)),
                 with_length(TOWNSHIP_NO_ACCOUNT, COUNT(texts)));
    for (size_t i = 0; i < COUNT(texts); i++) {
        CHECK_ANSWER(answers[i], bare(TOWNSHIP_NO_ACCOUNT));
    }
    CHECK_ANSWER(answers[COUNT(texts)], bare(99));
    drop(all);
}

/* Offsets that are not in order, or beyond the bytes, have no description between them. */
static void answers_ranges(const township_plat *plat) {
    bytes all = bytes_of(ONE_LOT);
    const size_t offsets[] = {0, all.length, 0, all.length + 1, 0, SIZE_MAX, all.length, all.length};
    township_answer answers[COUNT(offsets) - 1];

    CHECK_ANSWER(township_acres_many(plat, all.at, all.length, offsets, COUNT(offsets), TOWNSHIP_EXACT, answers,
                                     COUNT(answers)),
                 with_length(TOWNSHIP_ACCEPTED, COUNT(answers)));
    CHECK_ANSWER(answers[0], acres(4045));
    CHECK_ANSWER(answers[1], bare(TOWNSHIP_NO_RANGE));
    CHECK_ANSWER(answers[2], bare(TOWNSHIP_NO_RANGE));
    CHECK_ANSWER(answers[3], bare(TOWNSHIP_NO_RANGE));
    CHECK_ANSWER(answers[4], bare(TOWNSHIP_NO_RANGE));
    CHECK_ANSWER(answers[5], bare(TOWNSHIP_NO_RANGE));
    CHECK_ANSWER(answers[6], refused(44, 0));
    /* Without offsets, or with only one, there are no descriptions. */
    for (size_t count = 0; count < 2; count++) {
        CHECK_ANSWER(township_acres_many(plat, all.at, all.length, offsets, count, TOWNSHIP_EXACT, answers, 0),
                     with_length(TOWNSHIP_ACCEPTED, 0));
    }
    drop(all);
}

static const struct {
    const char *text;
    uint32_t number;
    uint32_t at;
} refused_lists[] = {
    {"name;description\n", 81, 1},
    {"name,description\nA,sec. 7, lot 1.\n", 81, 2},
    {"name,description\nA,sec. 14.\nA,sec. 15.\n", 82, 3},
    {"name,description\nA,sec. 14.\nB,\"sec. 14, NE1/4.\"\n", 84, 3},
};

#define REFUSED_TRACT "name,description\nA,\"" NAMED_TWICE "\"\n"

static void refuses_lists(const township_plat *plat) {
    bytes list = bytes_of(REFUSED_TRACT);

    check_no_text(write_report, plat, list, tract_refused(2, 67, 19));
    drop(list);
    for (size_t i = 0; i < COUNT(refused_lists); i++) {
        list = bytes_of(refused_lists[i].text);
        check_no_text(write_report, plat, list, refused(refused_lists[i].number, refused_lists[i].at));
        drop(list);
    }
}

static void explains_notes(const township_plat *plat, bytes notes) {
    bytes missing = without_lines(notes, "W,6,7,");

    check_text(explain_notes, plat, missing, refused(11, 53),
               "township: notes.csv: missing record: W,6,7 (section line 53)\n");
    check_no_text(explain_notes, plat, notes, bare(TOWNSHIP_ACCEPTED));
    drop(missing);
}

#define TOLD_OF_LAND                                                                                               \
    ":1:20: this land was named before\n"                                                                          \
    "  1 | " NAMED_TWICE "\n"                                                                                      \
    "    |                    ^^^^\n"                                                                              \
    "  `NE1/4` at 1:10 overlaps it; both include sec. 14, NE1/4.\n"

/* What a note says of NE1/4 SE1/4: a quarter of a quarter has 40 acres, and two quarters have 320. */
#define NOTED_IN(file, wrapped)                                                                                     \
    "township: " file ": NE1/4 SE1/4 is read as one part of 40.00 acres, the " wrapped                             \
    " SE1/4; if two parts were meant, write a comma after NE1/4 (320.00 acres)\n"
#define JOINED "sec. 14, NE1/4 SE1/4."

static void notes_description(const township_plat *plat) {
    bytes joined = bytes_of(JOINED "\n");
    bytes several = bytes_of("sec. 14, NE1/4 SE1/4; sec. 15, W1/2 E1/2.\n");

    check_text(explain_land, plat, joined, explained(bare(TOWNSHIP_ACCEPTED), 1, 16, 0),
               NOTED_IN("land.txt:1:16: note", "NE1/4 of the\n ")
               "  1 | " JOINED "\n"
               "    |                ^^^^^\n");
    check_text(explain_land, plat, several, explained(bare(TOWNSHIP_ACCEPTED), 1, 16, 0),
               NOTED_IN("land.txt:1:16: note", "NE1/4 of the\n ")
               "  1 | sec. 14, NE1/4 SE1/4; sec. 15, W1/2 E1/2.\n"
               "    |                ^^^^^\n"
               "  1 more such place\n");
    drop(joined);
    drop(several);
}

static void explains_description(const township_plat *plat) {
    bytes twice = bytes_of(NAMED_TWICE "\n");
    bytes once = bytes_of("sec. 14, N1/2.\n");

    check_text(explain_land, plat, twice, explained(refused(67, 19), 1, 20, 0), "township: land.txt" TOLD_OF_LAND);
    check_no_text(explain_land, plat, once, bare(TOWNSHIP_ACCEPTED));
    drop(twice);
    drop(once);
}

static void explains_list(const char *samples, const township_plat *plat) {
    bytes refused_tract = bytes_of(REFUSED_TRACT);
    bytes after_quotes = bytes_of("name,description\nA,\"\"&\n");
    bytes after_sentence = bytes_of("name,description\nA,\"sec. 4.\"&\n");
    bytes list = bytes_of_file(samples, "tracts.csv");

    check_text(explain_list, plat, refused_tract, explained(tract_refused(2, 67, 19), 2, 23, 0),
               "township: tracts.csv:2:23: tract `A`: this land was named before\n"
               "  2 | A,\"" NAMED_TWICE "\"\n"
               "    |                       ^^^^\n"
               "  `NE1/4` at 2:13 overlaps it; both include sec. 14, NE1/4.\n");
    check_no_text(explain_list, plat, list, bare(TOWNSHIP_ACCEPTED));

    /* Text right after the closing quotation mark, with four bytes before it on its line, and with eleven. */
    check_text(explain_list, plat, after_quotes, explained(tract_refused(2, 42, 0), 2, 5, 0),
               "township: tracts.csv:2:5: tract `A`: `&` is not allowed in a description\n"
               "  2 | A,\"\"&\n"
               "    |     ^\n"
               "  write and\n");
    check_text(explain_list, plat, after_sentence, explained(tract_refused(2, 42, 7), 2, 12, 0),
               "township: tracts.csv:2:12: tract `A`: `&` is not allowed in a description\n"
               "  2 | A,\"sec. 4.\"&\n"
               "    |            ^\n"
               "  write and\n");
    drop(refused_tract);
    drop(after_quotes);
    drop(after_sentence);
    drop(list);
}

static void notes_list(const township_plat *plat) {
    bytes list = bytes_of("name,description\nA,\"" JOINED "\"\nB,sec. 15.\n");

    check_text(explain_list, plat, list, explained(bare(TOWNSHIP_ACCEPTED), 2, 19, 0),
               NOTED_IN("tracts.csv:2:19: note: tract A", "NE1/4\n  of the")
               "  2 | A,\"" JOINED "\"\n"
               "    |                   ^^^^^\n");
    drop(list);
}

/* The name that an explanation gives its text, and the explanation of a fault in it. */
static void check_name(const township_plat *plat, const char *name, size_t length, const char *told) {
    bytes twice = bytes_of(NAMED_TWICE "\n");
    township_answer wanted = explained(refused(67, 19), 1, 20, strlen(told));
    room *r = room_new();

    CHECK_ANSWER(township_explain_description(plat, twice.at, twice.length, (const uint8_t *)name, length,
                                              room_text(r), MOST_TEXT),
                 wanted);
    CHECK(room_holds(r, told, strlen(told)));
    drop(twice);
    free(r);
}

static void names_files(const township_plat *plat) {
    check_name(plat, "", 0, "township: input" TOLD_OF_LAND);
    check_name(plat, "unread", 0, "township: input" TOLD_OF_LAND);
    check_name(plat, "\xC3\x28", 2, "township: input" TOLD_OF_LAND);
    check_name(plat, "\xFF", 1, "township: input" TOLD_OF_LAND);
    check_name(plat, "Pe\xC3\xB1"
                     "a.txt",
               9, "township: Pe\xC3\xB1" "a.txt" TOLD_OF_LAND);
    check_name(plat, "land.txt, and more", 8, "township: land.txt" TOLD_OF_LAND);
}

static void has_version(const char *version) {
    char numbers[sizeof TOWNSHIP_VERSION];

    check_text(write_version, NULL, (bytes){NULL, 0}, bare(TOWNSHIP_ACCEPTED), version);
    CHECK(strcmp(TOWNSHIP_VERSION, version) == 0);
    snprintf(numbers, sizeof numbers, "%d.%d.%d", TOWNSHIP_VERSION_MAJOR, TOWNSHIP_VERSION_MINOR,
             TOWNSHIP_VERSION_PATCH);
    CHECK(strcmp(numbers, version) == 0);
    snprintf(numbers, sizeof numbers, "%d.%d.%d", TOWNSHIP_VERSION_NUMBER / 1000000,
             TOWNSHIP_VERSION_NUMBER / 1000 % 1000, TOWNSHIP_VERSION_NUMBER % 1000);
    CHECK(strcmp(numbers, version) == 0);
}

static void refuses_plat(const township_plat *plat) {
    township_answer no_plat = bare(TOWNSHIP_NO_PLAT);
    township_fraction area = {1, 2, 3};
    township_plat_figures figures = {.lots = {{1}}};
    township_answer many[] = {bare(99), bare(99), bare(99)};
    bytes land = bytes_of(ONE_LOT);
    const size_t offsets[] = {0, land.length, 0};
    bytes list = bytes_of("name,description\n");

    CHECK_ANSWER(acres_of(plat, ONE_LOT, TOWNSHIP_EXACT), no_plat);
    CHECK_ANSWER(acres_of(plat, ONE_LOT, TOWNSHIP_BY_PLAT), no_plat);
    keeps_area(area_of(plat, ONE_LOT, TOWNSHIP_EXACT, &area), no_plat, area);
    check_no_text(write_normal, plat, land, no_plat);
    check_no_text(write_print, plat, land, no_plat);
    check_no_text(write_notes, plat, land, no_plat);
    check_no_text(write_report, plat, list, no_plat);
    CHECK_ANSWER(township_figures(plat, &figures), no_plat);
    CHECK(figures.lots[0][0] == 1 && figures.sections[0] == 0 && figures.township == 0);
    CHECK_ANSWER(township_acres_many(plat, land.at, land.length, offsets, 3, TOWNSHIP_EXACT, many, 1),
                 with_length(TOWNSHIP_NO_ROOM, 2));
    CHECK_ANSWER(many[0], bare(99));
    /* A plat is checked before an account. Offsets that are not in order have no description between them. */
    CHECK_ANSWER(township_acres_many(plat, land.at, land.length, offsets, 3, 2, many, 3),
                 with_length(TOWNSHIP_NO_PLAT, 2));
    CHECK_ANSWER(many[0], no_plat);
    CHECK_ANSWER(many[1], bare(TOWNSHIP_NO_RANGE));
    CHECK_ANSWER(many[2], bare(99));
    CHECK_ANSWER(township_acres_many(plat, land.at, land.length, offsets, 0, TOWNSHIP_EXACT, many, 0), no_plat);
    check_no_text(explain_land, plat, land, no_plat);
    check_no_text(explain_list, plat, list, no_plat);
    refuses_plat_of_lists(plat);
    refuses_plat_in_full(plat);
    drop(land);
    drop(list);
}

static void refuses_township(township_plat plat, uint8_t number, uint8_t north_south, uint8_t range,
                             uint8_t east_west) {
    plat.number = number;
    plat.north_south = north_south;
    plat.range = range;
    plat.east_west = east_west;
    refuses_plat(&plat);
}

static void refuses_quarter(township_plat plat, int line, uint32_t quarter) {
    plat.closing_quarters[line] = quarter;
    refuses_plat(&plat);
}

static void refuses_plats(void) {
    township_plat plat = even_plat();
    township_plat zero;

    memset(&zero, 0, sizeof zero);
    refuses_plat(&zero);
    refuses_township(plat, 0, 0, 3, 1);
    refuses_township(plat, 100, 0, 3, 1);
    refuses_township(plat, 2, 0, 0, 1);
    refuses_township(plat, 2, 0, 100, 1);
    refuses_township(plat, 2, 2, 3, 1);
    refuses_township(plat, 2, 0, 3, 255);
    /* Line 4 closes on the north boundary, and line 83 on the west boundary; lines 7 and 58 do not close. */
    refuses_quarter(plat, 4, 4999);
    refuses_quarter(plat, 83, 25001);
    refuses_quarter(plat, 7, 19999);
    refuses_quarter(plat, 58, 20001);
    refuses_quarter(plat, 0, UINT32_MAX);
}

/* A plat made by hand, and a copy of one, give the same answers as one that was read. */
static void makes_plats(const township_plat *read) {
    township_plat plat = even_plat();
    township_plat *copy = malloc(sizeof *copy);

    CHECK(copy != NULL);
    if (copy == NULL) {
        return;
    }
    CHECK_ANSWER(acres_of(&plat, ONE_LOT, TOWNSHIP_EXACT), acres(4000));
    plat.closing_quarters[4] = 5000;
    plat.closing_quarters[83] = 25000;
    plat.number = 99;
    plat.north_south = TOWNSHIP_SOUTH;
    plat.range = 1;
    plat.east_west = TOWNSHIP_EAST;
    CHECK_ANSWER(acres_of(&plat, "T. 99 S., R. 1 E., sec. 14.", TOWNSHIP_EXACT), acres(64000));
    memcpy(copy, read, sizeof *copy);
    CHECK_ANSWER(acres_of(copy, ONE_LOT, TOWNSHIP_EXACT), acres(4045));
    CHECK(memcmp(copy, read, sizeof *copy) == 0);
    free(copy);
}

static void refuses_accounts(const township_plat *plat) {
    const uint32_t accounts[] = {2, 256, UINT32_MAX};

    for (size_t i = 0; i < COUNT(accounts); i++) {
        township_fraction area = {1, 2, 3};

        CHECK_ANSWER(acres_of(plat, ONE_LOT, accounts[i]), bare(TOWNSHIP_NO_ACCOUNT));
        keeps_area(area_of(plat, ONE_LOT, accounts[i], &area), bare(TOWNSHIP_NO_ACCOUNT), area);
    }
}

int main(int count, char **words) {
    const char *samples = count > 1 ? words[1] : "samples";
    const char *version = count > 2 ? words[2] : "1.0.0";
    long rounds = count > 3 ? strtol(words[3], NULL, 10) : 1000;
    township_plat even = even_plat();
    township_plat plat = even_plat();
    bytes notes = bytes_of_file(samples, "b1.csv");

    CHECK_ANSWER(notes_plat(notes, &plat), bare(TOWNSHIP_ACCEPTED));
    reads_notes(samples, notes, &plat);
    has_acres(&plat);
    has_areas(&plat);
    writes_notes(samples, &plat, &even);
    writes_normal(&plat);
    prints(&plat);
    has_figures(&plat);
    reports(samples, &plat);
    has_accounts(&plat);
    has_answers_of_tracts(&plat);
    has_overlaps(&plat);
    answers_many(&plat);
    answers_ranges(&plat);
    answers_in_full(&plat);
    has_version(version);
    refuses_descriptions(&plat);
    refuses_lists(&plat);
    takes_no_bytes(&plat);
    has_limits(&plat, &even);
    explains_notes(&plat, notes);
    explains_description(&plat);
    explains_list(samples, &plat);
    notes_description(&plat);
    notes_list(&plat);
    names_files(&plat);
    gives_parts(&plat);
    makes_plats(&plat);
    refuses_plats();
    refuses_accounts(&plat);
    answers_land(&plat);
    answers_designations();
    answers_split();
    answers_lots();
    answers_lot_lands();
    answers_lot_lists();
    answers_readings(&plat);
    answers_lot_readings();
    call_from_threads(notes, rounds);
    drop(notes);
    return checked();
}
