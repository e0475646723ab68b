/* Tries the calls for readings, for what is unread, and for phrases that the caller says aren't land. */
#include "land.h"

#include <stdlib.h>
#include <string.h>

#include "check.h"
#include "given.h"

_Static_assert(sizeof(township_reading) == 40, "a reading has 4 numbers of 8 bytes and 2 of 4");
_Static_assert(sizeof(township_change) == 56, "a change has 6 numbers of 8 bytes and 2 of 4");
_Static_assert(sizeof(township_suggestion) == 56, "a suggestion has 7 numbers of 8 bytes");
_Static_assert(sizeof(township_stretch) == 24, "a stretch has 2 numbers of 8 bytes and 2 of 4");

#define COUNT(array) (sizeof(array) / sizeof *(array))
#define MOST_CHANGES 64
#define MOST_UNREAD 8

/* Where the call writes, filled with NEVER before it. */
typedef struct rooms {
    township_reading readings[TOWNSHIP_READINGS_MOST];
    township_change changes[MOST_CHANGES];
    uint8_t bytes[4096];
    township_suggestion suggestion;
} rooms;

static township_answer suggest(bytes text, rooms *to, size_t readings, size_t changes, size_t room) {
    memset(to, NEVER, sizeof *to);
    return township_suggest(text.at, text.length, to->readings, readings, to->changes, changes, to->bytes, room,
                            &to->suggestion);
}

static township_answer suggest_all(bytes text, rooms *to) {
    return suggest(text, to, COUNT(to->readings), COUNT(to->changes), COUNT(to->bytes));
}

/* Adds the form of a reading to `shown`: its text, and for each change its place, its rule, and what it writes. */
static void show(const rooms *from, const township_reading *reading, char *shown, size_t size) {
    size_t at = strlen(shown);

    at += (size_t)snprintf(shown + at, size - at, "%.*s|%u\n", (int)reading->text_length,
                           (const char *)from->bytes + reading->text, reading->manner);
    for (uint64_t i = 0; i < reading->changes_length; i++) {
        const township_change *change = &from->changes[reading->changes + i];

        at += (size_t)snprintf(shown + at, size - at, "%d-%d %u %u %d-%d [%.*s]\n", (int)change->start,
                               (int)change->end, change->rule, change->assumes, (int)change->copied,
                               (int)change->copied_end, (int)change->written_length,
                               (const char *)from->bytes + change->written);
    }
}

/* A text has exactly these readings, and beyond them nothing was written. */
static void reads(const char *text, const char *wanted) {
    bytes given = bytes_of(text);
    rooms found, none;
    char shown[4096] = "";

    memset(&none, NEVER, sizeof none);
    CHECK_ANSWER(suggest_all(given, &found), bare(TOWNSHIP_ACCEPTED));
    for (uint64_t i = 0; i < found.suggestion.readings; i++) {
        CHECK(found.readings[i].reserved == 0);
        show(&found, &found.readings[i], shown, sizeof shown);
    }
    CHECK(strcmp(shown, wanted) == 0);
    if (strcmp(shown, wanted) != 0) {
        printf("%s:\n%s", text, shown);
    }
    CHECK(memcmp(found.readings + found.suggestion.readings, none.readings,
                 sizeof none.readings - found.suggestion.readings * sizeof *none.readings) == 0);
    CHECK(memcmp(found.changes + found.suggestion.changes, none.changes,
                 sizeof none.changes - found.suggestion.changes * sizeof *none.changes) == 0);
    CHECK(memcmp(found.bytes + found.suggestion.bytes, none.bytes, sizeof none.bytes - found.suggestion.bytes) == 0);
    drop(given);
}

static void has_readings(void) {
    /* A description without a doubtful place is its own reading. */
    reads("sec. 14, NE1/4.", "sec. 14, NE1/4.|0\n");
    /* White space between two parts: a comma is written at byte 17, or the space from there to 18 is left out. */
    reads("sec. 14: NE\302\274NE\302\274 SW\302\274SW\302\274", "sec. 14: NE\302\274NE\302\274, SW\302\274SW\302\274|0\n"
                                                               "17-17 16 0 0-0 [,]\n"
                                                               "sec. 14: NE\302\274NE\302\274SW\302\274SW\302\274|0\n"
                                                               "17-18 18 6 0-0 []\n");
    /* Without the space between them, they are one part: no comma is missing at byte 11. */
    reads("sec. 14, NENE", "sec. 14, NE1/4NE1/4|0\n"
                           "11-11 2 6 0-0 [1/4]\n"
                           "13-13 2 0 0-0 [1/4]\n");
    /* The label is left out, and assumed not to be land. */
    reads("TRACT 1: sec. 14, NE1/4.", " sec. 14, NE1/4.|0\n"
                                      "0-8 26 3 0-0 []\n");
    /* A letter is wrong in the fraction at byte 11. */
    reads("sec. 14, NEI/4", "sec. 14, NE1/4|0\n"
                            "11-14 2 5 0-0 [1/4]\n");
    /* Nothing is certain. */
    reads("", "");
    reads("the old mill", "");
    reads("sec. 14\377", "");
}

/* With too little room, of whatever kind, only the sizes are written. */
static void has_no_room(void) {
    bytes given = bytes_of("sec. 14: NE1/4NE1/4 SW1/4SW1/4");
    rooms whole, found, none;
    const size_t readings = 2, changes = 2;

    CHECK_ANSWER(suggest_all(given, &whole), bare(TOWNSHIP_ACCEPTED));
    CHECK(whole.suggestion.readings == readings && whole.suggestion.changes == changes);
    const size_t room = (size_t)whole.suggestion.bytes;
    const size_t less[][3] = {
        {readings - 1, changes, room}, {readings, changes - 1, room}, {readings, changes, room - 1}, {0, 0, 0}};
    for (size_t i = 0; i < COUNT(less); i++) {
        memset(&none, NEVER, sizeof none);
        CHECK_ANSWER(suggest(given, &found, less[i][0], less[i][1], less[i][2]), bare(TOWNSHIP_NO_ROOM));
        CHECK(memcmp(&found.suggestion, &whole.suggestion, sizeof whole.suggestion) == 0);
        none.suggestion = whole.suggestion;
        CHECK(memcmp(&found, &none, sizeof none) == 0);
    }
    CHECK_ANSWER(suggest(given, &found, readings, changes, room), bare(TOWNSHIP_ACCEPTED));
    CHECK(memcmp(&found, &whole, sizeof whole) == 0);
    drop(given);
}

/* What readings come to on a plat, by the call for many descriptions and by others. */
static void are_measured(const township_plat *plat) {
    bytes given = bytes_of("sec. 14: NE1/4NE1/4 SW1/4SW1/4");
    const uint64_t wanted[] = {8000, 250};
    rooms found;

    CHECK_ANSWER(suggest_all(given, &found), bare(TOWNSHIP_ACCEPTED));
    for (size_t i = 0; i < COUNT(wanted); i++) {
        const township_reading *reading = &found.readings[i];
        const uint8_t *text = found.bytes + reading->text;

        CHECK_ANSWER(township_acres(plat, text, (size_t)reading->text_length, TOWNSHIP_EXACT), acres(wanted[i]));
    }
    drop(given);
}

/* Exactly this is unread of a text: its places, and the ways of each. Beyond them nothing was written. */
static void leaves(const char *text, const char *wanted) {
    bytes given = bytes_of(text);
    township_stretch unread[MOST_UNREAD], none[MOST_UNREAD];
    char shown[256] = "";
    size_t at = 0;

    memset(unread, NEVER, sizeof unread);
    memset(none, NEVER, sizeof none);
    const township_answer answer = township_unread(given.at, given.length, unread, COUNT(unread));
    CHECK(answer.verdict == TOWNSHIP_ACCEPTED && answer.length <= COUNT(unread));
    for (uint64_t i = 0; i < answer.length; i++) {
        CHECK(unread[i].reserved == 0);
        at += (size_t)snprintf(shown + at, sizeof shown - at, "%d-%d %u\n", (int)unread[i].start, (int)unread[i].end,
                               unread[i].ways);
    }
    CHECK(strcmp(shown, wanted) == 0);
    if (strcmp(shown, wanted) != 0) {
        printf("unread of %s:\n%s", text, shown);
    }
    CHECK(memcmp(unread + answer.length, none, sizeof none - answer.length * sizeof *none) == 0);
    drop(given);
}

static void has_unread(void) {
    leaves("", "");
    /* `the` is a connective. */
    leaves("the old mill", "4-12 0\n");
    /* Between two words of a run there may be connectives and marks, but no line feed and no phrase. */
    leaves("that portion of the NE/4 lying north of the road", "0-12 0\n25-48 0\n");
    leaves("\302\275 bl\303\244h\nblip Sec. 14 blop", "0-8 0\n9-13 0\n22-26 0\n");
    /* Before any other land, `S2` may be section 2. */
    leaves("S2, 12, T2N R3W", "4-6 0\n0-2 1\n");
    /* A byte that is no character is one of a word. */
    leaves("sec. 14\377", "7-8 0\n");
}

/* With too little room, only the number is answered. */
static void has_no_room_for_unread(void) {
    bytes given = bytes_of("blip Sec. 14 blop");
    township_stretch unread[2], none[2];

    for (size_t room = 0; room < 2; room++) {
        memset(unread, NEVER, sizeof unread);
        memset(none, NEVER, sizeof none);
        const township_answer answer = township_unread(given.at, given.length, unread, room);
        CHECK(answer.verdict == TOWNSHIP_NO_ROOM && answer.length == 2);
        CHECK(memcmp(unread, none, sizeof none) == 0);
    }
    CHECK(township_unread(given.at, given.length, unread, 2).verdict == TOWNSHIP_ACCEPTED);
    CHECK(unread[0].start == 0 && unread[0].end == 4 && unread[1].start == 13 && unread[1].end == 17);
    drop(given);
}

/* Phrases that are stored one after another, and the offsets between them. */
typedef struct phrases {
    const char *bytes;
    size_t offsets[4];
    size_t count;
} phrases;

static const phrases own = {"kestrelTract IDED", {0, 7, 15, 17}, 3};

static township_answer set_aside(const char *text, phrases given, township_stretch *aside, size_t room) {
    bytes description = bytes_of(text);
    const township_answer answer =
        township_set_aside(description.at, description.length, (const uint8_t *)given.bytes,
                           given.offsets[given.count], given.offsets, given.count + 1, aside, room);
    drop(description);
    return answer;
}

/* A phrase is found in letters of either case, as whole words, and at each place the first one of the list. */
static void sets_phrases_aside(void) {
    township_stretch aside[4], none[4];

    memset(none, NEVER, sizeof none);
    memset(aside, NEVER, sizeof aside);
    CHECK(set_aside("tract id Kestrel, Edna Ed: sec. 14", own, aside, 4).length == 3);
    CHECK(aside[0].start == 0 && aside[0].end == 8 && aside[0].ways == 0 && aside[0].reserved == 0);
    CHECK(aside[1].start == 9 && aside[1].end == 16);
    CHECK(aside[2].start == 23 && aside[2].end == 25);
    CHECK(memcmp(aside + 3, none, sizeof none[0]) == 0);
    CHECK_ANSWER(set_aside("sec. 14", own, aside, 4), bare(TOWNSHIP_ACCEPTED));

    memset(aside, NEVER, sizeof aside);
    const township_answer small = set_aside("Kestrel Kestrel", own, aside, 1);
    CHECK(small.verdict == TOWNSHIP_NO_ROOM && small.length == 2 && memcmp(aside, none, sizeof none) == 0);
}

/* A phrase that names, excepts, or limits land is refused by its number, and so are offsets that are no range. */
static void refuses_phrases(void) {
    static const phrases of_land[] = {
        {"kestrelLot 3", {0, 7, 12}, 2}, {"kestrelNE/4", {0, 7, 11}, 2}, {"kestrelless", {0, 7, 11}, 2},
        {"kestrelnorth of", {0, 7, 15}, 2},
    };
    static const phrases crossed = {"kestrelunit", {7, 0, 11}, 2};
    township_stretch aside[2], none[2];

    memset(none, NEVER, sizeof none);
    memset(aside, NEVER, sizeof aside);
    for (size_t i = 0; i < COUNT(of_land); i++) {
        CHECK_ANSWER(set_aside("Kestrel sec. 14", of_land[i], aside, 2), refused(51, 2));
    }
    CHECK_ANSWER(set_aside("Kestrel sec. 14", crossed, aside, 2), bare(TOWNSHIP_NO_RANGE));
    CHECK(memcmp(aside, none, sizeof none) == 0);
}

/* At most 65,536 bytes of phrases are taken, and at most as many phrases. */
static void refuses_many_phrases(void) {
    static uint8_t letters[65537];
    static size_t offsets[65538];
    static const uint8_t text[] = "sec. 14";
    township_stretch aside[1];

    memset(letters, 'q', sizeof letters);
    offsets[1] = sizeof letters;
    CHECK_ANSWER(township_set_aside(text, 7, letters, sizeof letters, offsets, 2, aside, 1),
                 refused(50, 65536));
    offsets[1] = sizeof letters - 1;
    CHECK_ANSWER(township_set_aside(text, 7, letters, sizeof letters - 1, offsets, 2, aside, 1),
                 bare(TOWNSHIP_ACCEPTED));
    offsets[1] = 0;
    CHECK_ANSWER(township_set_aside(text, 7, letters, 1, offsets, COUNT(offsets), aside, 1),
                 refused(50, 65536));
    CHECK_ANSWER(township_set_aside(text, 7, letters, 1, offsets, COUNT(offsets) - 1, aside, 1),
                 bare(TOWNSHIP_ACCEPTED));
}

void answers_readings(const township_plat *plat) {
    has_readings();
    has_unread();
    sets_phrases_aside();
    refuses_phrases();
    refuses_many_phrases();
    has_no_room_for_unread();
    has_no_room();
    are_measured(plat);
}
