/* The call that splits a text into the parts of its townships. */
#include <string.h>

#include "check.h"
#include "given.h"
#include "land.h"

#define COUNT(array) (sizeof(array) / sizeof *(array))

#define MOST_PARTS 5

/* The text is split into exactly these parts, which are given one to a line. Beyond them nothing was written. */
static void splits(const char *text, const char *wanted) {
    bytes given = bytes_of(text);
    township_stretch parts[MOST_PARTS], none[MOST_PARTS];
    char shown[256] = "";
    size_t at = 0;

    memset(parts, NEVER, sizeof parts);
    memset(none, NEVER, sizeof none);
    const township_answer answer = township_split(given.at, given.length, parts, COUNT(parts));
    CHECK(answer.verdict == TOWNSHIP_ACCEPTED && answer.length <= COUNT(parts));
    CHECK_ANSWER(answer, with_length(TOWNSHIP_ACCEPTED, answer.length));
    for (uint64_t i = 0; i < answer.length; i++) {
        CHECK(parts[i].ways == 0 && parts[i].reserved == 0);
        at += (size_t)snprintf(shown + at, sizeof shown - at, "%.*s\n", (int)(parts[i].end - parts[i].start),
                               text + parts[i].start);
    }
    CHECK(strcmp(shown, wanted) == 0);
    if (strcmp(shown, wanted) != 0) {
        printf("parts of %s:\n%s", text, shown);
    }
    CHECK(memcmp(parts + answer.length, none, sizeof none - answer.length * sizeof *none) == 0);
    drop(given);
}

static void splits_at_headings(void) {
    splits("T. 2 N., R. 3 W., sec. 5, lots 1 and 2; T. 3 N., R. 3 W., secs. 31 and 32, S1/2.",
           "T. 2 N., R. 3 W., sec. 5, lots 1 and 2\nT. 3 N., R. 3 W., secs. 31 and 32, S1/2.\n");
    splits("T2N R3W sec. 5;\nand t3n r3w sec. 31", "T2N R3W sec. 5\nt3n r3w sec. 31\n");
    /* A period belongs to the part that it ends. */
    splits("T2N R3W sec. 5. T3N R3W sec. 31.", "T2N R3W sec. 5.\nT3N R3W sec. 31.\n");
    /* Each `T` begins a part, whatever follows it. */
    splits("T2N R3W sec. 14 T3N5", "T2N R3W sec. 14\nT3N5\n");
    /* Three parts, two of them of the same township. */
    splits("T2N R3W sec. 5; T3N R3W sec. 31; T2N R3W sec. 6",
           "T2N R3W sec. 5\nT3N R3W sec. 31\nT2N R3W sec. 6\n");
}

/* These are parts, which other calls refuse: only `;` and `; and` separate townships, and only once. */
static void keeps_what_is_no_separator(void) {
    splits("T2N R3W sec. 5, and T3N R3W sec. 31", "T2N R3W sec. 5, and\nT3N R3W sec. 31\n");
    splits("T2N R3W sec. 5;; T3N R3W sec. 31;", "T2N R3W sec. 5;\nT3N R3W sec. 31;\n");
    splits("T2N R3W sec. 5; and and T3N", "T2N R3W sec. 5; and and\nT3N\n");
    splits("T T;T; and T", "T\nT\nT\nT\n");
}

/* A text with one township is not changed, nor is white space around it. */
static void keeps_one_township(void) {
    splits("", "\n");
    splits(" \t\n", " \t\n\n");
    splits("sec. 14, NE1/4.", "sec. 14, NE1/4.\n");
    splits(" T2N R3W sec. 14; ", " T2N R3W sec. 14; \n");
    /* A word that begins with `T` does not begin a heading. */
    splits("T2N R3W Tract 1 sec. 14", "T2N R3W Tract 1 sec. 14\n");
    splits("\377\302", "\377\302\n");
}

static void refuses(const char *text, uint32_t number, uint32_t at) {
    bytes given = bytes_of(text);
    township_stretch part, other;

    memset(&part, NEVER, sizeof part);
    memset(&other, NEVER, sizeof other);
    CHECK_ANSWER(township_split(given.at, given.length, &part, 1), refused(number, at));
    CHECK(memcmp(&part, &other, sizeof part) == 0);
    drop(given);
}

/* The first land has no heading, but other land has: the place is that of the first heading. */
static void refuses_land_without_heading(void) {
    refuses("sec. 5; T. 2 N., R. 3 W., sec. 6; T. 3 N., R. 3 W., sec. 31", TOWNSHIP_REFUSAL_SPLIT_NO_HEADING, 8);
    refuses("; T2N", TOWNSHIP_REFUSAL_SPLIT_NO_HEADING, 2);
}

static void refuses_long_texts(void) {
    bytes most = padded("T2N R3W sec. 5", ' ', TOWNSHIP_SPLIT_MOST);
    bytes long_text = padded("T2N R3W sec. 5", ' ', TOWNSHIP_SPLIT_MOST + 1);
    township_stretch part;

    CHECK_ANSWER(township_split(most.at, most.length, &part, 1), with_length(TOWNSHIP_ACCEPTED, 1));
    CHECK(part.start == 0 && part.end == TOWNSHIP_SPLIT_MOST);
    CHECK_ANSWER(township_split(long_text.at, long_text.length, &part, 1),
                 refused(TOWNSHIP_REFUSAL_SPLIT_TOO_LARGE, TOWNSHIP_SPLIT_MOST));
    drop(most);
    drop(long_text);
}

/* With too little room, only the number is answered. */
static void has_no_room_for_parts(void) {
    bytes given = bytes_of("T2N R3W sec. 5; T3N R3W sec. 31");
    township_stretch parts[2], none[2];

    memset(none, NEVER, sizeof none);
    for (size_t room = 0; room < 2; room++) {
        memset(parts, NEVER, sizeof parts);
        CHECK_ANSWER(township_split(given.at, given.length, parts, room), with_length(TOWNSHIP_NO_ROOM, 2));
        CHECK(memcmp(parts, none, sizeof none) == 0);
    }
    CHECK_ANSWER(township_split(given.at, given.length, parts, 2), with_length(TOWNSHIP_ACCEPTED, 2));
    CHECK(parts[0].start == 0 && parts[0].end == 14 && parts[1].start == 16 && parts[1].end == 31);
    drop(given);
}

void answers_split(void) {
    splits_at_headings();
    keeps_what_is_no_separator();
    keeps_one_township();
    refuses_land_without_heading();
    refuses_long_texts();
    has_no_room_for_parts();
}
