/*
 * Refuses the library one growth of its memory after another, in each call that takes memory: `growth_test
 * SAMPLES`. The call answers that memory ran out and writes nothing, or it does without and answers as usual; and
 * it frees everything that it allocated. This program defines malloc and the functions that go with it, and
 * passes each growth on to the C library's own; if that is impossible, it is not compiled.
 */
#define _GNU_SOURCE
#include <dlfcn.h>
#include <errno.h>
#include <stdlib.h>
#include <string.h>

#include "check.h"
#include "given.h"

/* Growths until one is refused, or 0 for none; whether one was refused; and blocks that were not freed. */
static long growths_left;
static bool was_refused;
static long blocks;

static bool is_refused(void) {
    if (growths_left == 0 || --growths_left > 0) {
        return false;
    }
    was_refused = true;
    errno = ENOMEM;
    return true;
}

/* The C library's function with a name. POSIX lets a function be stored as a pointer to data; C does not. */
static void *own(const char *name) {
    void *found = dlsym(RTLD_NEXT, name);

    if (found == NULL) {
        abort();
    }
    return found;
}

#define OWN(function, name)                                                                                        \
    do {                                                                                                           \
        if (function == NULL) {                                                                                    \
            void *found = own(name);                                                                               \
            memcpy(&function, &found, sizeof found);                                                               \
        }                                                                                                          \
    } while (0)

static void *counted(void *block) {
    blocks += block != NULL;
    return block;
}

void *malloc(size_t size) {
    static void *(*function)(size_t);

    OWN(function, "malloc");
    return is_refused() ? NULL : counted(function(size));
}

void *calloc(size_t count, size_t size) {
    static void *(*function)(size_t, size_t);

    OWN(function, "calloc");
    return is_refused() ? NULL : counted(function(count, size));
}

void *realloc(void *old, size_t size) {
    static void *(*function)(void *, size_t);
    void *grown;

    OWN(function, "realloc");
    if (is_refused()) {
        return NULL;
    }
    grown = function(old, size);
    blocks += old == NULL && grown != NULL;
    return grown;
}

void *aligned_alloc(size_t alignment, size_t size) {
    static void *(*function)(size_t, size_t);

    OWN(function, "aligned_alloc");
    return is_refused() ? NULL : counted(function(alignment, size));
}

int posix_memalign(void **to, size_t alignment, size_t size) {
    static int (*function)(void **, size_t, size_t);
    int status;

    OWN(function, "posix_memalign");
    if (is_refused()) {
        return ENOMEM;
    }
    status = function(to, alignment, size);
    blocks += status == 0;
    return status;
}

void free(void *block) {
    static void (*function)(void *);

    OWN(function, "free");
    blocks -= block != NULL;
    function(block);
}

/* The input of the calls, and where they write. */
static bytes notes;
static township_plat plat;
static township_plat read_to;
static township_fraction area;
static township_plat_figures figures;
static township_tract tracts[2];
static township_totals totals;
static township_tract_answer each[2];
static township_overlap overlaps[2];
static township_lots_overlap overlaps_by_lots[2];
static township_answer answers[2];
static township_full_answer full[2];
static township_land land;
static township_lots lots;
static uint32_t comparison;
static township_part parts[8];
static township_reading readings[TOWNSHIP_READINGS_MOST];
static township_change changes[8];
static township_suggestion suggestion;
static township_stretch unread[2];
static room *texts;

/* Land of the township of the plat, and another. */
static township_land first, second;
static const township_designation here = {2, TOWNSHIP_NORTH, 3, TOWNSHIP_WEST};

#define BYTES(text) ((const uint8_t *)(text)), (sizeof(text) - 1)

static township_answer call_read(void) {
    return township_read(notes.at, notes.length, &read_to);
}

static township_answer call_acres(void) {
    return township_acres(&plat, BYTES("sec. 5, lots 1 and 2, S1/2NE1/4."), TOWNSHIP_EXACT);
}

static township_answer call_acres_by_plat(void) {
    return township_acres(&plat, BYTES("sec. 7, lots 1 to 4."), TOWNSHIP_BY_PLAT);
}

static township_answer call_area(void) {
    return township_area(&plat, BYTES("sec. 7, lot 1."), TOWNSHIP_EXACT, &area);
}

static township_answer call_normal(void) {
    return township_normal(&plat, BYTES("sec. 14, SE1/4, NE1/4, NW1/4."), room_text(texts), MOST_TEXT);
}

static township_answer call_print(void) {
    return township_print(&plat, room_text(texts), MOST_TEXT);
}

static township_answer call_report(void) {
    return township_report(&plat, BYTES("name,description\nA,\"sec. 7, lot 1.\"\nB,sec. 6.\n"), room_text(texts),
                           MOST_TEXT);
}

static township_answer call_account(void) {
    return township_account(&plat, BYTES("name,description\nA,\"sec. 7, lot 1.\"\nB,sec. 6.\n"), tracts, 2, &totals);
}

static township_answer call_report_each(void) {
    return township_report_each(&plat, BYTES("name,description\nA,\"sec. 7, lot 1.\"\nA,sec. 6.\n"), each, 2);
}

static township_answer call_overlaps(void) {
    return township_overlaps(&plat, BYTES("name,description\nA,\"sec. 7, lot 1.\"\nB,sec. 7.\n"), overlaps, 2);
}

static township_answer call_refused(void) {
    return township_report(&plat, BYTES("name,description\nA,sec. 14.\nB,sec. 14.\n"), room_text(texts), MOST_TEXT);
}

static township_answer call_explain_notes(void) {
    return township_explain_notes(BYTES("line,between\n"), BYTES("notes.csv"), room_text(texts), MOST_TEXT);
}

static township_answer call_explain_description(void) {
    return township_explain_description(&plat, BYTES("sec. 14, NE1/4 and N1/2."), BYTES("land.txt"),
                                        room_text(texts), MOST_TEXT);
}

static township_answer call_explain_list(void) {
    return township_explain_list(&plat, BYTES("name,description\nA,\"sec. 14, NE1/4 and N1/2.\"\n"),
                                 BYTES("tracts.csv"), room_text(texts), MOST_TEXT);
}

static township_explanation explanation;

static township_answer call_explain_notes_parts(void) {
    return township_explain_notes_parts(BYTES("line,between\n"), BYTES("notes.csv"), room_text(texts), MOST_TEXT,
                                        &explanation);
}

/* The reading of the description is read again, which takes memory too. */
static township_answer call_explain_description_parts(void) {
    return township_explain_description_parts(&plat, BYTES("sec. 14, NE/4 and SE/4."), BYTES("land.txt"),
                                              room_text(texts), MOST_TEXT, &explanation);
}

static township_answer call_explain_list_parts(void) {
    return township_explain_list_parts(&plat, BYTES("name,description\nA,\"sec. 14, NE/4 and SE/4.\"\n"),
                                       BYTES("tracts.csv"), room_text(texts), MOST_TEXT, &explanation);
}

static township_answer call_write_notes(void) {
    return township_write_notes(&plat, room_text(texts), MOST_TEXT);
}

static township_answer call_figures(void) {
    return township_figures(&plat, &figures);
}

static township_answer call_many(void) {
    static const size_t offsets[] = {0, 8, 22};

    return township_acres_many(&plat, BYTES("sec. 14.sec. 7, lot 1."), offsets, 3, TOWNSHIP_EXACT, answers, 2);
}

static township_answer call_answer_many(void) {
    static const size_t offsets[] = {0, 8, 22};

    return township_answer_many(&plat, BYTES("sec. 14.sec. 7, lot 1."), offsets, 3, TOWNSHIP_EXACT, full, 2);
}

static township_answer call_note_description(void) {
    return township_explain_description(&plat, BYTES("sec. 14, NE1/4 SE1/4."), BYTES("land.txt"), room_text(texts),
                                        MOST_TEXT);
}

static township_answer call_note_list(void) {
    return township_explain_list(&plat, BYTES("name,description\nA,\"sec. 14, NE1/4 SE1/4.\"\n"),
                                 BYTES("tracts.csv"), room_text(texts), MOST_TEXT);
}

static township_answer call_designation_read(void) {
    static township_designation township;

    return township_designation_read(BYTES("Township Two North, Range Three West"), &township);
}

static township_answer call_designation_text(void) {
    return township_designation_text(&here, room_text(texts), MOST_TEXT);
}

static township_answer call_land_read(void) {
    return township_land_read(&here, BYTES("sec. 5, lots 1 and 2, S1/2NE1/4."), &land);
}

static township_answer call_land_acres(void) {
    return township_land_acres(&plat, &first, TOWNSHIP_EXACT);
}

static township_answer call_land_area(void) {
    return township_land_area(&plat, &first, TOWNSHIP_BY_PLAT, &area);
}

static township_answer call_land_text(void) {
    return township_land_text(&first, room_text(texts), MOST_TEXT);
}

static township_answer call_land_parts(void) {
    return township_land_parts(&first, parts, sizeof parts / sizeof *parts);
}

static township_answer call_land_combine(void) {
    return township_land_combine(&first, &second, TOWNSHIP_DIFFERENCE, &land);
}

static township_answer call_land_compare(void) {
    return township_land_compare(&first, &second, &comparison);
}

#define TABLE "section,lot,acres\nT,2,N,3,W\n5,1,40.45\n5,2,40.55\n"

static township_answer call_lots_read(void) {
    return township_lots_read(BYTES(TABLE), &lots);
}

static township_answer call_lots_plain(void) {
    return township_lots_plain(BYTES("section;lot;acres;\nT;2;N;3;W\n5;1;40.5;\n"), room_text(texts), MOST_TEXT);
}

static township_lots table;

static township_answer call_explain_lots(void) {
    return township_explain_lots(BYTES("section,lot,acres\nT,2,N,3,W\n5,1,40.45\n5,1,40.45\n"), BYTES("lots.csv"),
                                 room_text(texts), MOST_TEXT);
}

static township_answer call_explain_lacking(void) {
    return township_explain_lacking(&table, 503, BYTES("land.txt"), room_text(texts), MOST_TEXT);
}

static township_answer call_explain_lots_parts(void) {
    return township_explain_lots_parts(BYTES("section,lot,acres\nT,2,N,3,W\n5,1,40.5\n"), BYTES("lots.csv"),
                                       room_text(texts), MOST_TEXT, &explanation);
}

static township_answer call_explain_lacking_parts(void) {
    return township_explain_lacking_parts(&table, 503, BYTES("land.txt"), room_text(texts), MOST_TEXT, &explanation);
}

/* The township with a lake of docs/LOTS-FORMAT.md, and land on its plat. */
#define LAKE                                                                                                       \
    "section,lot,acres,land\nT,2,N,3,W,1912-03-04\n14,1,38.50,NE1/4NE1/4\n14,2,12.25,N1/2NW1/4NE1/4\n"             \
    "14,3,19.80,S1/2NW1/4NE1/4\n14,4,71.10,E1/2NW1/4\n14,,,NW1/4NW1/4\n"

static township_lots lake;
static township_land by_the_lake;

static township_answer call_lots_read_lake(void) {
    return township_lots_read(BYTES(LAKE), &lots);
}

static township_answer call_lots_land_read(void) {
    return township_lots_land_read(&lake, BYTES("sec. 14, lots 1 to 3, S1/2NE1/4."), &land);
}

static township_answer call_lots_land_text(void) {
    return township_lots_land_text(&lake, &by_the_lake, room_text(texts), MOST_TEXT);
}

/* A lot that the plat doesn't have; a text whose reading is read again; a lot that a table lacks; and a note. */
static township_answer call_lots_explain_no_lot(void) {
    return township_lots_explain_description(&lake, BYTES("sec. 14, lot 5."), BYTES("land.txt"), room_text(texts),
                                             MOST_TEXT);
}

static township_answer call_lots_explain_description_parts(void) {
    return township_lots_explain_description_parts(&lake, BYTES("sec. 14, SE/4."), BYTES("land.txt"),
                                                   room_text(texts), MOST_TEXT, &explanation);
}

static township_answer call_lots_explain_lacking(void) {
    return township_lots_explain_description(&table, BYTES("sec. 5, lot 3."), BYTES("land.txt"), room_text(texts),
                                             MOST_TEXT);
}

static township_answer call_lots_note_description(void) {
    return township_lots_explain_description(&lake, BYTES("sec. 14, lot 1 and 2."), BYTES("land.txt"),
                                             room_text(texts), MOST_TEXT);
}

static township_answer call_lots_acres(void) {
    return township_lots_acres(&table, BYTES("sec. 5, lots 1 and 2, S1/2NE1/4."));
}

static township_answer call_lots_area(void) {
    return township_lots_area(&table, BYTES("sec. 5, lot 1."), &area);
}

static township_answer call_lots_land_acres(void) {
    return township_lots_land_acres(&table, &first);
}

static township_answer call_lots_land_area(void) {
    return township_lots_land_area(&table, &first, &area);
}

static township_answer call_lots_report(void) {
    return township_lots_report(&table, BYTES("name,description\nA,\"sec. 5, lot 1.\"\nB,sec. 14.\n"), tracts, 2);
}

static township_answer call_lots_report_refused(void) {
    return township_lots_report(&table, BYTES("name,description\nA,sec. 14.\nB,\"sec. 5, lot 3.\"\n"), tracts, 2);
}

static township_answer call_lots_report_each(void) {
    return township_lots_report_each(&table, BYTES("name,description\nA,\"sec. 5, lot 1.\"\nB,\"sec. 5, lot 3.\"\n"), each,
                                     2);
}

static township_answer call_lots_overlaps(void) {
    return township_lots_overlaps(&lake, BYTES("name,description\nA,sec. 14.\nB,\"sec. 14, lot 2.\"\n"),
                                  overlaps_by_lots, 2);
}

static township_answer call_lots_acres_many(void) {
    static const size_t offsets[] = {0, 8, 22};

    return township_lots_acres_many(&table, BYTES("sec. 20.sec. 5, lot 1."), offsets, 3, answers, 2);
}

static township_answer call_lots_answer_many(void) {
    static const size_t offsets[] = {0, 8, 22};

    return township_lots_answer_many(&table, BYTES("sec. 20.sec. 5, lot 1."), offsets, 3, full, 2);
}

/* A tract that is refused on the plat, one with a lot that the table lacks, and a note. */
static township_answer call_lots_explain_list(void) {
    return township_lots_explain_list(&lake, BYTES("name,description\nA,\"sec. 14, lot 5.\"\n"), BYTES("tracts.csv"),
                                      room_text(texts), MOST_TEXT);
}

static township_answer call_lots_explain_lacking_tract(void) {
    return township_lots_explain_list(&table, BYTES("name,description\nA,\"sec. 5, lot 3.\"\n"), BYTES("tracts.csv"),
                                      room_text(texts), MOST_TEXT);
}

static township_answer call_lots_note_list(void) {
    return township_lots_explain_list(&lake, BYTES("name,description\nA,\"sec. 14, lot 1 and 2.\"\n"),
                                      BYTES("tracts.csv"), room_text(texts), MOST_TEXT);
}

static township_answer call_lots_explain_list_parts(void) {
    return township_lots_explain_list_parts(&lake, BYTES("name,description\nA,sec. 14.\nB,\"sec. 14, lot 2.\"\n"),
                                            BYTES("tracts.csv"), room_text(texts), MOST_TEXT, &explanation);
}

static township_answer call_suggest(void) {
    return township_suggest(BYTES("sec. 14: NE1/4NE1/4 SW1/4SW1/4"), readings, TOWNSHIP_READINGS_MOST, changes, 8,
                            room_text(texts), MOST_TEXT, &suggestion);
}

static township_answer call_lots_suggest(void) {
    return township_lots_suggest(&lake, BYTES("sec. 14: NE1/4NE1/4 SW1/4SW1/4"), readings, TOWNSHIP_READINGS_MOST,
                                 changes, 8, room_text(texts), MOST_TEXT, &suggestion);
}

static township_answer call_suggest_itself(void) {
    return township_suggest(BYTES("sec. 14, NE1/4."), readings, TOWNSHIP_READINGS_MOST, changes, 8, room_text(texts),
                            MOST_TEXT, &suggestion);
}

static township_answer call_unread(void) {
    return township_unread(BYTES("blip Sec. 14 blop"), unread, 2);
}

static township_answer call_set_aside(void) {
    static const size_t offsets[] = {0, 4, 8};

    return township_set_aside(BYTES("blip Sec. 14 blop"), BYTES("blipblop"), offsets, 3, unread, 2);
}

static township_answer call_split(void) {
    return township_split(BYTES("T2N R3W sec. 5; T3N R3W sec. 31."), unread, 2);
}

static const struct {
    const char *name;
    township_answer (*call)(void);
} calls[] = {
    {"township_read", call_read},
    {"township_acres", call_acres},
    {"township_acres, by the plat", call_acres_by_plat},
    {"township_area", call_area},
    {"township_normal", call_normal},
    {"township_print", call_print},
    {"township_report", call_report},
    {"township_report, refused", call_refused},
    {"township_account", call_account},
    {"township_report_each", call_report_each},
    {"township_overlaps", call_overlaps},
    {"township_explain_notes", call_explain_notes},
    {"township_explain_description", call_explain_description},
    {"township_explain_list", call_explain_list},
    {"township_explain_notes_parts", call_explain_notes_parts},
    {"township_explain_description_parts", call_explain_description_parts},
    {"township_explain_list_parts", call_explain_list_parts},
    {"township_explain_description, accepted with a note", call_note_description},
    {"township_explain_list, accepted with a note", call_note_list},
    {"township_write_notes", call_write_notes},
    {"township_figures", call_figures},
    {"township_designation_read", call_designation_read},
    {"township_designation_text", call_designation_text},
    {"township_land_read", call_land_read},
    {"township_land_acres", call_land_acres},
    {"township_land_area", call_land_area},
    {"township_land_text", call_land_text},
    {"township_land_parts", call_land_parts},
    {"township_land_combine", call_land_combine},
    {"township_land_compare", call_land_compare},
    {"township_lots_read", call_lots_read},
    {"township_lots_read, a table with land", call_lots_read_lake},
    {"township_lots_plain", call_lots_plain},
    {"township_explain_lots", call_explain_lots},
    {"township_explain_lacking", call_explain_lacking},
    {"township_explain_lots_parts", call_explain_lots_parts},
    {"township_explain_lacking_parts", call_explain_lacking_parts},
    {"township_lots_acres", call_lots_acres},
    {"township_lots_area", call_lots_area},
    {"township_lots_land_acres", call_lots_land_acres},
    {"township_lots_land_area", call_lots_land_area},
    {"township_lots_land_read", call_lots_land_read},
    {"township_lots_land_text", call_lots_land_text},
    {"township_lots_explain_description", call_lots_explain_no_lot},
    {"township_lots_explain_description, a lot that the table lacks", call_lots_explain_lacking},
    {"township_lots_explain_description, accepted with a note", call_lots_note_description},
    {"township_lots_explain_description_parts", call_lots_explain_description_parts},
    {"township_lots_report", call_lots_report},
    {"township_lots_report, refused", call_lots_report_refused},
    {"township_lots_report_each", call_lots_report_each},
    {"township_lots_overlaps", call_lots_overlaps},
    {"township_lots_explain_list", call_lots_explain_list},
    {"township_lots_explain_list, a lot that the table lacks", call_lots_explain_lacking_tract},
    {"township_lots_explain_list, accepted with a note", call_lots_note_list},
    {"township_lots_explain_list_parts", call_lots_explain_list_parts},
    {"township_suggest", call_suggest},
    {"township_suggest, a description", call_suggest_itself},
    {"township_lots_suggest", call_lots_suggest},
    {"township_unread", call_unread},
    {"township_set_aside", call_set_aside},
    {"township_split", call_split},
};

/* Everything that a call can write. */
typedef struct written {
    township_plat read_to;
    township_fraction area;
    township_plat_figures figures;
    township_tract tracts[2];
    township_totals totals;
    township_land land;
    township_lots lots;
    uint32_t comparison;
    township_part parts[8];
    township_tract_answer each[2];
    township_overlap overlaps[2];
    township_lots_overlap overlaps_by_lots[2];
    township_reading readings[TOWNSHIP_READINGS_MOST];
    township_change changes[8];
    township_suggestion suggestion;
    township_stretch unread[2];
    room texts;
} written;

static written before, after, found;

static void clear(void) {
    memset(&read_to, 0, sizeof read_to);
    memset(&area, 0, sizeof area);
    memset(&figures, 0, sizeof figures);
    memset(tracts, 0, sizeof tracts);
    memset(&totals, 0, sizeof totals);
    memset(each, 0, sizeof each);
    memset(overlaps, 0, sizeof overlaps);
    memset(overlaps_by_lots, 0, sizeof overlaps_by_lots);
    memset(answers, 0, sizeof answers);
    memset(full, 0, sizeof full);
    memset(&land, 0, sizeof land);
    memset(&lots, 0, sizeof lots);
    comparison = 0;
    memset(parts, 0, sizeof parts);
    memset(readings, 0, sizeof readings);
    memset(changes, 0, sizeof changes);
    memset(&suggestion, 0, sizeof suggestion);
    memset(unread, 0, sizeof unread);
    room_clear(texts);
}

static void keep(written *in) {
    in->read_to = read_to;
    in->area = area;
    in->figures = figures;
    memcpy(in->tracts, tracts, sizeof tracts);
    in->totals = totals;
    in->land = land;
    in->lots = lots;
    in->comparison = comparison;
    memcpy(in->parts, parts, sizeof parts);
    memcpy(in->each, each, sizeof each);
    memcpy(in->overlaps, overlaps, sizeof overlaps);
    memcpy(in->overlaps_by_lots, overlaps_by_lots, sizeof overlaps_by_lots);
    memcpy(in->readings, readings, sizeof readings);
    memcpy(in->changes, changes, sizeof changes);
    in->suggestion = suggestion;
    memcpy(in->unread, unread, sizeof unread);
    in->texts = *texts;
}

/* Makes a call, with this growth refused, or none for 0, and checks that it frees what it allocated. */
static township_answer make(township_answer (*call)(void), long growth, written *to) {
    township_answer answer;
    long held = blocks;

    clear();
    was_refused = false;
    growths_left = growth;
    answer = call();
    growths_left = 0;
    CHECK(blocks == held);
    keep(to);
    return answer;
}

/* Whether a call that was refused memory has written nothing, or everything that it writes otherwise. */
static bool is_all_or_nothing(township_answer answer, township_answer wanted) {
    if (same_answer(answer, bare(TOWNSHIP_NO_MEMORY))) {
        return memcmp(&found, &before, sizeof found) == 0;
    }
    return same_answer(answer, wanted) && memcmp(&found, &after, sizeof found) == 0;
}

static void refuse_in_turn(const char *name, township_answer (*call)(void)) {
    township_answer wanted, answer;
    long growth = 0;
    long without = 0;

    clear();
    keep(&before);
    wanted = make(call, 0, &after);
    do {
        answer = make(call, ++growth, &found);
        CHECK(is_all_or_nothing(answer, wanted));
        CHECK(was_refused || same_answer(answer, wanted));
        without += was_refused && answer.verdict != TOWNSHIP_NO_MEMORY;
    } while (was_refused && growth < 100000);
    CHECK(!was_refused);
    printf("%s: %ld growths refused, %ld of them done without\n", name, growth - 1, without);
}

/* Whether an answer is the usual one, or that memory ran out. */
static bool is_usual(township_answer answer, township_answer wanted) {
    return same_answer(answer, wanted) || same_answer(answer, bare(TOWNSHIP_NO_MEMORY));
}

/* Of many descriptions, each is answered as usual, or that memory ran out. */
static void refuse_many_in_turn(const char *name, township_answer (*call)(void), uint64_t second_acres) {
    township_answer wanted[2];
    long growth = 0;

    CHECK_ANSWER(make(call, 0, &after), with_length(TOWNSHIP_ACCEPTED, 2));
    memcpy(wanted, answers, sizeof wanted);
    CHECK(wanted[0].hundredths == 64000 && wanted[1].hundredths == second_acres);
    do {
        CHECK_ANSWER(make(call, ++growth, &found), with_length(TOWNSHIP_ACCEPTED, 2));
        for (int i = 0; i < 2; i++) {
            CHECK(is_usual(answers[i], wanted[i]));
        }
    } while (was_refused && growth < 100000);
    CHECK(!was_refused);
    printf("%s: %ld growths refused\n", name, growth - 1);
}

/* The same of each of the answers in full. */
static void refuse_full_in_turn(const char *name, township_answer (*call)(void)) {
    township_full_answer wanted[2];
    long growth = 0;

    CHECK_ANSWER(make(call, 0, &after), with_length(TOWNSHIP_ACCEPTED, 2));
    memcpy(wanted, full, sizeof wanted);
    CHECK(wanted[0].acres.hundredths == 64000 && wanted[1].normal.length == 33);
    do {
        CHECK_ANSWER(make(call, ++growth, &found), with_length(TOWNSHIP_ACCEPTED, 2));
        for (int i = 0; i < 2; i++) {
            CHECK(is_usual(full[i].acres, wanted[i].acres) && is_usual(full[i].normal, wanted[i].normal) &&
                  is_usual(full[i].note, wanted[i].note));
            CHECK(full[i].normal.verdict == TOWNSHIP_ACCEPTED ? memcmp(full[i].text, wanted[i].text, 256) == 0
                                                              : full[i].text[0] == 0);
        }
    } while (was_refused && growth < 100000);
    CHECK(!was_refused);
    printf("%s: %ld growths refused\n", name, growth - 1);
}

int main(int count, char **words) {
    notes = bytes_of_file(count > 1 ? words[1] : "samples", "b1.csv");
    texts = room_new();
    CHECK_ANSWER(township_read(notes.at, notes.length, &plat), bare(TOWNSHIP_ACCEPTED));
    CHECK_ANSWER(township_land_read(&here, BYTES("sec. 5, lots 1 and 2; sec. 14."), &first), bare(TOWNSHIP_ACCEPTED));
    CHECK_ANSWER(township_land_read(&here, BYTES("sec. 14, NE1/4."), &second), bare(TOWNSHIP_ACCEPTED));
    CHECK_ANSWER(township_lots_read(BYTES(TABLE), &table), bare(TOWNSHIP_ACCEPTED));
    CHECK_ANSWER(township_lots_read(BYTES(LAKE), &lake), bare(TOWNSHIP_ACCEPTED));
    CHECK_ANSWER(township_lots_land_read(&lake, BYTES("sec. 14."), &by_the_lake), bare(TOWNSHIP_ACCEPTED));
    for (size_t i = 0; i < sizeof calls / sizeof *calls; i++) {
        refuse_in_turn(calls[i].name, calls[i].call);
    }
    refuse_many_in_turn("township_acres_many", call_many, 3918);
    refuse_many_in_turn("township_lots_acres_many", call_lots_acres_many, 4045);
    refuse_full_in_turn("township_answer_many", call_answer_many);
    refuse_full_in_turn("township_lots_answer_many", call_lots_answer_many);
    drop(notes);
    free(texts);
    return checked();
}
