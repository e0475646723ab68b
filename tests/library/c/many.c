#include "many.h"

#include <stdlib.h>
#include <string.h>

#include "check.h"

_Static_assert(sizeof(township_full_answer) == 400, "three answers of 48 bytes, and a text of 256");
_Static_assert(offsetof(township_full_answer, normal) == 48, "an answer follows another");
_Static_assert(offsetof(township_full_answer, text) == 144, "a text follows the answers");

#define COUNT(array) (sizeof(array) / sizeof *(array))

/* The canonical text of a description of all odd sections is longer than the room for it. */
#define LONG                                                                                                        \
    "secs. 1, 3, 5, 7, 9, 11, 13, 15, 17, 19, 21, 23, 25, 27, 29, 31, 33, and 35; sec. 2, lot 1; sec. 4, lot 1; "   \
    "sec. 8, NE1/4; sec. 10, NE1/4; sec. 12, NE1/4; sec. 14, NE1/4; sec. 16, NE1/4; sec. 20, NE1/4."

static const char *const texts[] = {
    "sec. 5, lot 1.", "sec. 14, NE1/4 and N1/2.", "", "sec. 14, NE1/4 SE1/4.", LONG, "sec. 7, lots 1 to 4.",
};

#define TEXTS COUNT(texts)

/* Descriptions in a row, and room for their answers, with one more after it. No byte of it has been written. */
typedef struct given {
    bytes all;
    size_t offsets[TEXTS + 1];
    township_full_answer answers[TEXTS + 1];
} given;

static given in_a_row(void) {
    given made;

    memset(&made, NEVER, sizeof made);
    made.all = row_of(texts, TEXTS, made.offsets);
    return made;
}

static township_answer answer_all(const township_plat *plat, given *to, uint32_t account, size_t room) {
    return township_answer_many(plat, to->all.at, to->all.length, to->offsets, TEXTS + 1, account, to->answers, room);
}

/* Whether the bytes from `length` on have not been written. */
static bool is_blank_after(const void *from, size_t length, size_t size) {
    const uint8_t *at = from;

    for (size_t i = length; i < size; i++) {
        if (at[i] != NEVER) {
            return false;
        }
    }
    return true;
}

/* Compares the answers to a description with those of the calls for one. */
static void check_full(const township_plat *plat, const char *text, uint32_t account, township_full_answer found) {
    bytes description = bytes_of(text);
    uint8_t normal[TOWNSHIP_TEXT_ROOM];
    uint8_t none[1];
    township_answer answer = township_normal(plat, description.at, description.length, normal, sizeof normal);
    size_t length = answer.verdict == TOWNSHIP_ACCEPTED ? answer.length : 0;

    CHECK_ANSWER(found.acres, township_acres(plat, description.at, description.length, account));
    CHECK_ANSWER(found.normal, answer);
    CHECK(memcmp(found.text, normal, length) == 0);
    CHECK(is_blank_after(found.text, length, sizeof found.text));
    if (found.acres.verdict == TOWNSHIP_ACCEPTED) {
        CHECK_ANSWER(found.note, township_explain_description(plat, description.at, description.length,
                                                              (const uint8_t *)"", 0, none, 0));
    } else {
        CHECK_ANSWER(found.note, found.acres);
    }
    drop(description);
}

static void answers_each(const township_plat *plat) {
    for (uint32_t account = TOWNSHIP_EXACT; account <= TOWNSHIP_BY_PLAT; account++) {
        given to = in_a_row();

        CHECK_ANSWER(answer_all(plat, &to, account, TEXTS + 1), with_length(TOWNSHIP_ACCEPTED, TEXTS));
        for (size_t i = 0; i < TEXTS; i++) {
            check_full(plat, texts[i], account, to.answers[i]);
        }
        CHECK(is_blank_after(&to.answers[TEXTS], 0, sizeof to.answers[TEXTS]));
        /* 40.45 acres; named twice at byte 19; a note on line 1, column 16; 156.40 acres, or 156.42 by the plat. */
        CHECK(to.answers[0].acres.hundredths == 4045 && to.answers[0].note.verdict == TOWNSHIP_ACCEPTED);
        CHECK_ANSWER(to.answers[1].acres, refused(67, 19));
        CHECK_ANSWER(to.answers[1].note, refused(67, 19));
        CHECK(to.answers[3].note.verdict == TOWNSHIP_NO_ROOM && to.answers[3].note.number == 0);
        CHECK(to.answers[3].note.line == 1 && to.answers[3].note.column == 16);
        CHECK(to.answers[4].normal.verdict == TOWNSHIP_NO_ROOM && to.answers[4].normal.length > TOWNSHIP_TEXT_ROOM);
        CHECK(to.answers[5].acres.hundredths == (account == TOWNSHIP_EXACT ? 15640 : 15642));
        drop(to.all);
    }
}

/* With less room than there are descriptions, nothing is written. */
static void needs_room(const township_plat *plat) {
    given to = in_a_row();

    CHECK_ANSWER(answer_all(plat, &to, TOWNSHIP_EXACT, TEXTS - 1), with_length(TOWNSHIP_NO_ROOM, TEXTS));
    CHECK(is_blank_after(to.answers, 0, sizeof to.answers));
    drop(to.all);
}

/* Whether the three answers about a description are this one, and no text was written. */
static bool are_all(const township_full_answer *full, township_answer wanted) {
    return same_answer(full->acres, wanted) && same_answer(full->normal, wanted) && same_answer(full->note, wanted) &&
           is_blank_after(full->text, 0, sizeof full->text);
}

/* Offsets that are not in order, or beyond the bytes, have no description between them. */
static void answers_ranges(const township_plat *plat) {
    bytes all = bytes_of(texts[0]);
    const size_t offsets[] = {all.length, 0, all.length + 1, all.length, 0, all.length};
    township_full_answer answers[COUNT(offsets) - 1];

    memset(answers, NEVER, sizeof answers);
    CHECK_ANSWER(township_answer_many(plat, all.at, all.length, offsets, COUNT(offsets), TOWNSHIP_EXACT, answers,
                                      COUNT(answers)),
                 with_length(TOWNSHIP_ACCEPTED, COUNT(answers)));
    for (size_t i = 0; i < 4; i++) {
        CHECK(are_all(&answers[i], bare(TOWNSHIP_NO_RANGE)));
    }
    CHECK_ANSWER(answers[4].acres, acres(4045));
    /* Without offsets, or with only one, there are no descriptions. */
    for (size_t count = 0; count < 2; count++) {
        CHECK_ANSWER(township_answer_many(plat, all.at, all.length, offsets, count, TOWNSHIP_EXACT, answers, 0),
                     with_length(TOWNSHIP_ACCEPTED, 0));
    }
    drop(all);
}

void answers_in_full(const township_plat *plat) {
    given to = in_a_row();

    answers_each(plat);
    needs_room(plat);
    answers_ranges(plat);
    /* No such account: each acreage and the verdict say so, and each text is as by any account. */
    CHECK_ANSWER(answer_all(plat, &to, 2, TEXTS), with_length(TOWNSHIP_NO_ACCOUNT, TEXTS));
    for (size_t i = 0; i < TEXTS; i++) {
        check_full(plat, texts[i], 2, to.answers[i]);
        CHECK_ANSWER(to.answers[i].acres, bare(TOWNSHIP_NO_ACCOUNT));
    }
    CHECK_ANSWER(to.answers[0].normal, with_length(TOWNSHIP_ACCEPTED, 33));
    drop(to.all);
}

void refuses_plat_in_full(const township_plat *plat) {
    given to = in_a_row();

    CHECK_ANSWER(answer_all(plat, &to, TOWNSHIP_EXACT, TEXTS - 1), with_length(TOWNSHIP_NO_ROOM, TEXTS));
    CHECK(is_blank_after(to.answers, 0, sizeof to.answers));
    CHECK_ANSWER(answer_all(plat, &to, TOWNSHIP_EXACT, TEXTS), with_length(TOWNSHIP_NO_PLAT, TEXTS));
    for (size_t i = 0; i < TEXTS; i++) {
        CHECK(are_all(&to.answers[i], bare(TOWNSHIP_NO_PLAT)));
    }
    drop(to.all);
}
