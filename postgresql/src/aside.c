/*
 * Phrases that the caller says are not land: where they are in a text, and the text with spaces in their place, so that
 * all other places stay the same.
 */
#include "readings.h"

#include "catalog/pg_type.h"
#include "miscadmin.h"

/* The room for the places in nearly all texts. */
#define USUAL_PLACES 64

/* Phrases as the library takes them: their bytes in a row, and the offsets between them. */
typedef struct twpg_phrases {
    uint8_t *bytes;
    size_t *offsets;
    int count;
} twpg_phrases;

/* The phrases of an array, in UTF-8. One that is NULL is empty, so that it is never found. */
static twpg_phrases phrases_of(ArrayType *array) {
    twpg_phrases phrases;
    twpg_bytes *each;
    Datum *values;
    bool *nulls;
    int index;

    deconstruct_array(array, TEXTOID, -1, false, TYPALIGN_INT, &values, &nulls, &phrases.count);
    each = palloc0((size_t)(phrases.count + 1) * sizeof *each);
    phrases.offsets = palloc0((size_t)(phrases.count + 1) * sizeof *phrases.offsets);
    for (index = 0; index < phrases.count; index++) {
        if (!nulls[index]) {
            each[index] = twpg_bytes_of_text(DatumGetTextPP(values[index]));
        }
        phrases.offsets[index + 1] = phrases.offsets[index] + each[index].length;
    }
    phrases.bytes = palloc(phrases.offsets[phrases.count] + 1);
    for (index = 0; index < phrases.count; index++) {
        if (each[index].length != 0) {
            memcpy(phrases.bytes + phrases.offsets[index], each[index].start, each[index].length);
        }
    }
    return phrases;
}

/* The error for phrases that are refused: the place is the number of a phrase, from 1, or the limit. */
static _Noreturn void refuse(township_answer answer, const twpg_phrases *phrases) {
    twpg_explanation explained = {0};

    if (answer.number == TOWNSHIP_REFUSAL_PHRASES_NAMES_LAND) {
        size_t start = phrases->offsets[answer.at - 1];
        char *phrase = twpg_text_in((const char *)phrases->bytes, start, phrases->offsets[answer.at] - start);

        explained.sentence = psprintf("`%s` (phrase %u) can't be left out: it names, excepts, or limits land, or contains "
                                      "a number that could be that of a section",
                                      phrase, answer.at);
    } else {
        explained.sentence = "there are more than 65,536 phrases, or they have more than 65,536 bytes";
    }
    twpg_refuse(answer, &explained);
}

static township_answer find_in(twpg_aside *aside, const twpg_phrases *phrases, size_t room) {
    aside->places = palloc(room * sizeof *aside->places);
    return township_set_aside(aside->given.start, aside->given.length, phrases->bytes, phrases->offsets[phrases->count],
                              phrases->offsets, (size_t)phrases->count + 1, aside->places, room);
}

/* Whether there is more in a place than white space. */
static bool has_words(const twpg_aside *aside, const township_stretch *place) {
    const uint8_t *at = aside->given.start + place->start;
    const uint8_t *end = aside->given.start + place->end;

    while (at < end && memchr(" \t\n\r\f\v", *at, 6) != NULL) {
        at++;
    }
    return at < end;
}

/* Writes spaces in the place of the phrases. White space can be a phrase, too, of which there is nothing to say. */
static void blank(twpg_aside *aside, uint64_t count) {
    uint8_t *left = palloc(aside->given.length + 1);
    uint64_t index;

    memcpy(left, aside->given.start, aside->given.length);
    for (index = 0; index < count; index++) {
        township_stretch place = aside->places[index];

        if (has_words(aside, &place)) {
            memset(left + place.start, ' ', (size_t)(place.end - place.start));
            aside->places[aside->count++] = place;
        }
    }
    aside->left.start = left;
}

twpg_aside twpg_whole_argument(FunctionCallInfo fcinfo, int index) {
    twpg_bytes given = twpg_bytes_of_text(PG_GETARG_TEXT_PP(index));

    return (twpg_aside){.given = given, .left = given};
}

twpg_aside twpg_argument_without(FunctionCallInfo fcinfo, int index) {
    twpg_aside aside = twpg_whole_argument(fcinfo, index);
    twpg_phrases phrases;
    township_answer answer;

    if (PG_ARGISNULL(index + 1)) {
        return aside;
    }
    check_stack_depth();
    phrases = phrases_of(PG_GETARG_ARRAYTYPE_P(index + 1));
    answer = find_in(&aside, &phrases, USUAL_PLACES);
    if (answer.verdict == TOWNSHIP_NO_ROOM) {
        answer = find_in(&aside, &phrases, (size_t)answer.length);
    }
    if (answer.verdict == TOWNSHIP_REFUSED) {
        refuse(answer, &phrases);
    }
    if (answer.verdict != TOWNSHIP_ACCEPTED) {
        twpg_fail(answer.verdict);
    }
    blank(&aside, answer.length);
    return aside;
}
