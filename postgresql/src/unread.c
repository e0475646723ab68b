/*
 * The function unread: what of a text without readings is not understood, or can be read in two ways. It can leave out
 * phrases that the caller says are not land.
 */
#include "lots.h"
#include "readings.h"

#include "catalog/pg_type.h"

/* The room for what is unread of nearly all texts. */
#define USUAL_UNREAD 64

/* The two ways to read a phrase. The words are those of the package for Python. */
static const struct {
    uint32_t ways;
    const char *words;
} two_ways[] = {
    {TOWNSHIP_WAYS_SECTION_OR_HALF, "a section, or a half"},
    {TOWNSHIP_WAYS_LOT_OR_HALF, "one more lot, or a half"},
    {TOWNSHIP_WAYS_QUARTER_OR_SECTION, "a quarter, or a word for a section"},
    {TOWNSHIP_WAYS_NUMBER_OR_FIGURE, "the number of a section or a lot, or another figure"},
    {TOWNSHIP_WAYS_RANGE_OR_HALF, "the side of a range, or a half"},
    {TOWNSHIP_WAYS_PART_OR_SECTION, "of the part before it, or of the section"},
};

/* What is said of a text, as values of the database. */
typedef struct twpg_said {
    Datum *values;
    int count;
} twpg_said;

static void say(twpg_said *said, const char *text) {
    said->values[said->count++] = CStringGetTextDatum(twpg_from_utf8(text));
}

/* Says that a phrase can be read in two ways. */
static void say_two_ways(twpg_said *said, twpg_bytes text, const township_stretch *phrase) {
    StringInfoData line;
    size_t index;

    initStringInfo(&line);
    appendStringInfoChar(&line, '`');
    twpg_append_line(&line, text.start + phrase->start, text.start + phrase->end);
    appendStringInfoChar(&line, '`');
    for (index = 0; index < lengthof(two_ways); index++) {
        if (two_ways[index].ways == phrase->ways) {
            appendStringInfo(&line, " can be read in two ways: %s", two_ways[index].words);
        }
    }
    say(said, line.data);
}

/* Says that some bytes are not understood, unless they are white space. */
static void say_unknown(twpg_said *said, twpg_bytes text, uint64_t start, uint64_t end) {
    StringInfoData words;

    if (start >= end) {
        return;
    }
    initStringInfo(&words);
    twpg_append_line(&words, text.start + start, text.start + end);
    if (words.len > 0) {
        say(said, psprintf("not understood: `%s`", words.data));
    }
}

/* Says that some words are not understood: those on both sides of each phrase that is left out. `next` is the first
   phrase that does not end before them; words, and phrases, come from left to right. */
static void say_words(twpg_said *said, const twpg_aside *aside, const township_stretch *words, uint64_t *next) {
    uint64_t at = words->start;

    while (*next < aside->count && aside->places[*next].end <= words->start) {
        (*next)++;
    }
    for (; *next < aside->count && aside->places[*next].start < words->end; (*next)++) {
        say_unknown(said, aside->given, at, aside->places[*next].start);
        at = aside->places[*next].end;
    }
    say_unknown(said, aside->given, at, words->end);
}

static township_answer unread_in(twpg_bytes text, township_stretch **unread, size_t room) {
    *unread = palloc(room * sizeof **unread);
    return township_unread(text.start, text.length, *unread, room);
}

/* Returns what is unread of a text, or nothing if it has readings: by a lot table, or with the standard lots if that is
   NULL. */
static Datum unread_of(twpg_aside aside, const township_lots *lots) {
    township_stretch *unread;
    township_answer answer;
    twpg_said said = {NULL, 0};
    uint64_t next = 0;
    uint64_t index;

    if (twpg_has_readings(aside.left, lots)) {
        return PointerGetDatum(construct_empty_array(TEXTOID));
    }
    answer = unread_in(aside.left, &unread, USUAL_UNREAD);
    if (answer.verdict == TOWNSHIP_NO_ROOM) {
        answer = unread_in(aside.left, &unread, (size_t)answer.length);
    }
    if (answer.verdict != TOWNSHIP_ACCEPTED) {
        twpg_fail(answer.verdict);
    }
    said.values = palloc((size_t)(answer.length + aside.count + 1) * sizeof *said.values);
    for (index = 0; index < answer.length; index++) {
        if (unread[index].ways == 0) {
            say_words(&said, &aside, &unread[index], &next);
        } else {
            say_two_ways(&said, aside.given, &unread[index]);
        }
    }
    return PointerGetDatum(construct_array(said.values, said.count, TEXTOID, -1, false, TYPALIGN_INT));
}

TWPG_RETURNS(twpg_unread, unread_of(twpg_whole_argument(fcinfo, 0), NULL))

/* These take phrases after the text. They are not strict: without phrases, nothing is left out. */
PG_FUNCTION_INFO_V1(twpg_unread_without);
Datum twpg_unread_without(PG_FUNCTION_ARGS) {
    if (PG_ARGISNULL(0)) {
        PG_RETURN_NULL();
    }
    return unread_of(twpg_argument_without(fcinfo, 0), NULL);
}

PG_FUNCTION_INFO_V1(twpg_unread_by_lots);
Datum twpg_unread_by_lots(PG_FUNCTION_ARGS) {
    if (PG_ARGISNULL(0) || PG_ARGISNULL(1)) {
        PG_RETURN_NULL();
    }
    return unread_of(twpg_argument_without(fcinfo, 1), PG_GETARG_LOTS(0));
}
