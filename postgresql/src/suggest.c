/*
 * The function suggest: how a text, as people write it, would be written as a description. It returns a row for each of
 * the text's readings. A text that has none has one row without a reading, so that a join with it keeps every text. It
 * can leave out phrases that the caller says are not land. By a lot table, readings are on its plat.
 */
#include "lots.h"
#include "readings.h"

#include "catalog/pg_type.h"
#include "miscadmin.h"
#include "utils/tuplestore.h"

/* The room for the changes and the texts of nearly all readings. */
#define USUAL_CHANGES 64
#define USUAL_BYTES 4096

/* A text and what is left out of it, the plat or the lot table by which it is read, or NULL for both, and what the library
   suggests. */
typedef struct twpg_suggested {
    twpg_aside aside;
    const township_plat *plat;
    const township_lots *lots;
    uint32_t account;
    township_suggestion sizes;
    township_reading readings[TOWNSHIP_READINGS_MOST];
    township_change *changes;
    uint8_t *bytes;
} twpg_suggested;

/* A row, to which its values are added from left to right: the reading; its acres, if there is a plat or a table; how many
   changes make the text a description; what they assume; and the reason why there is no reading. */
typedef struct twpg_row {
    Datum values[5];
    bool nulls[5];
    int count;
} twpg_row;

/* What changes assume that the text does not say. The words are those of the package for Python. */
static const struct {
    uint32_t assumes;
    const char *words;
} assumptions[] = {
    {TOWNSHIP_ASSUMES_SAME_MERIDIAN, "the meridian, state, or county is that of the plat"},
    {TOWNSHIP_ASSUMES_SAME_ACREAGE, "the acreage is not compared"},
    {TOWNSHIP_ASSUMES_NOT_LAND, "this is not land"},
    {TOWNSHIP_ASSUMES_SAID_BEFORE, "this repeats what is before it"},
    {TOWNSHIP_ASSUMES_WRONG_LETTER, "a letter or digit is wrong"},
    {TOWNSHIP_ASSUMES_NO_MISSING_COMMA, "no comma is missing"},
};

/* What a reading assumes that depends on the lots of the plat, if nothing says which lots it has. */
#define STANDARD_LOTS "the plat has the standard lots"

/* A phrase of a text: the bytes from `start` to before `end`. */
typedef struct twpg_phrase {
    const uint8_t *start;
    const uint8_t *end;
} twpg_phrase;

static township_answer suggest_in(twpg_suggested *suggested, size_t changes, size_t bytes) {
    twpg_bytes text = suggested->aside.left;

    suggested->changes = palloc(changes * sizeof *suggested->changes);
    suggested->bytes = palloc(bytes);
    if (suggested->lots != NULL) {
        return township_lots_suggest(suggested->lots, text.start, text.length, suggested->readings,
                                     lengthof(suggested->readings), suggested->changes, changes, suggested->bytes,
                                     bytes, &suggested->sizes);
    }
    return township_suggest(text.start, text.length, suggested->readings, lengthof(suggested->readings),
                            suggested->changes, changes, suggested->bytes, bytes, &suggested->sizes);
}

/* Whether readings have acres. */
static bool has_acres(const twpg_suggested *suggested) {
    return suggested->plat != NULL || suggested->lots != NULL;
}

/* Finds the readings. The library says how much room many need. */
static void suggest(twpg_suggested *suggested) {
    township_answer answer;

    check_stack_depth();
    answer = suggest_in(suggested, USUAL_CHANGES, USUAL_BYTES);
    if (answer.verdict == TOWNSHIP_NO_ROOM) {
        answer = suggest_in(suggested, (size_t)suggested->sizes.changes, (size_t)suggested->sizes.bytes);
    }
    if (answer.verdict != TOWNSHIP_ACCEPTED) {
        twpg_fail(answer.verdict);
    }
}

bool twpg_has_readings(twpg_bytes text, const township_lots *lots) {
    twpg_suggested suggested = {.aside = {.left = text}, .lots = lots};

    suggest(&suggested);
    return suggested.sizes.readings != 0;
}

/* Adds some bytes of a text on one line: each run of white space becomes one space, and none is left at the ends. */
void twpg_append_line(StringInfo line, const uint8_t *at, const uint8_t *end) {
    int begun = line->len;
    bool is_after_white = false;

    for (; at < end; at++) {
        if (memchr(" \t\n\r\f\v", *at, 6) != NULL) {
            is_after_white = true;
            continue;
        }
        if (is_after_white && line->len > begun) {
            appendStringInfoChar(line, ' ');
        }
        appendStringInfoChar(line, (char)*at);
        is_after_white = false;
    }
}

/* Whether a byte is one of some characters. */
static bool is_among(uint8_t byte, const char *characters) {
    return byte != 0 && strchr(characters, byte) != NULL;
}

/* A phrase that goes on on both sides for as long as its bytes are, or aren't, among some characters. */
static twpg_phrase wider(twpg_phrase phrase, twpg_bytes text, const char *characters, bool are_among) {
    const uint8_t *end = text.start + text.length;

    while (phrase.start > text.start && is_among(phrase.start[-1], characters) == are_among) {
        phrase.start--;
    }
    while (phrase.end < end && is_among(*phrase.end, characters) == are_among) {
        phrase.end++;
    }
    return phrase;
}

/* Whether an assumption is about what is left out. The others are about the words around the change. */
static bool is_of_left_out(uint32_t assumes) {
    return assumes != TOWNSHIP_ASSUMES_WRONG_LETTER && assumes != TOWNSHIP_ASSUMES_NO_MISSING_COMMA;
}

/* The phrase that an assumption of a change is about. */
static twpg_phrase phrase_of(const township_change *change, twpg_bytes text) {
    twpg_phrase phrase = {text.start + change->start, text.start + change->end};

    if (is_of_left_out(change->assumes)) {
        return phrase;
    }
    if (change->copied_end != 0) {
        phrase.start = text.start + change->copied;
        phrase.end = text.start + change->copied_end;
    }
    if (change->rule == TOWNSHIP_RULE_ONE_PART) {
        phrase = wider(phrase, text, " \t\n\r", true);
    }
    phrase = wider(phrase, text, " \t\n\r,;:|", false);
    if (phrase.end > phrase.start && phrase.end[-1] == '.') {
        phrase.end--;
    }
    return phrase;
}

/* What a change assumes, with the phrase that this is about. */
static char *assumption_by(const township_change *change, twpg_bytes text) {
    const char *words = "this means nothing here";
    twpg_phrase phrase = phrase_of(change, text);
    StringInfoData assumption;
    size_t index;

    for (index = 0; index < lengthof(assumptions); index++) {
        if (assumptions[index].assumes == change->assumes) {
            words = assumptions[index].words;
        }
    }
    initStringInfo(&assumption);
    appendStringInfoString(&assumption, is_of_left_out(change->assumes) ? "without `" : "`");
    twpg_append_line(&assumption, phrase.start, phrase.end);
    appendStringInfo(&assumption, "`: %s", words);
    return assumption.data;
}

/* Whether there are only spaces left of a change, in the places of phrases. Then it assumes nothing more than these. */
static bool is_blank(const township_change *change, const twpg_aside *aside) {
    uint64_t at;

    if (aside->count == 0 || !is_of_left_out(change->assumes)) {
        return false;
    }
    for (at = change->start; at < change->end; at++) {
        if (memchr(" \t\n\r\f\v", aside->left.start[at], 6) == NULL) {
            return false;
        }
    }
    return true;
}

/* That the caller says of a place that it is not land. */
static char *assumption_of(const township_stretch *place, twpg_bytes given) {
    StringInfoData assumption;

    initStringInfo(&assumption);
    appendStringInfoString(&assumption, "without `");
    twpg_append_line(&assumption, given.start + place->start, given.start + place->end);
    appendStringInfoString(&assumption, "`: you said that this is not land");
    return assumption.data;
}

/* Texts, each of which is said once. */
typedef struct twpg_said {
    char **texts;
    Datum *values;
    int count;
} twpg_said;

static void say(twpg_said *said, char *text) {
    int index;

    for (index = 0; index < said->count; index++) {
        if (strcmp(text, said->texts[index]) == 0) {
            return;
        }
    }
    said->texts[said->count] = text;
    said->values[said->count++] = CStringGetTextDatum(twpg_from_utf8(text));
}

/* What a reading assumes, as an array, from left to right: each assumption once. */
static Datum assumed_by(const twpg_suggested *suggested, const township_reading *reading) {
    const township_change *change = suggested->changes + reading->changes;
    const township_change *end = change + reading->changes_length;
    const twpg_aside *aside = &suggested->aside;
    const township_stretch *place = aside->places;
    const township_stretch *last = place + aside->count;
    twpg_bytes text = {suggested->bytes + reading->text, (size_t)reading->text_length};
    size_t most = (size_t)(reading->changes_length + aside->count + 1);
    twpg_said said = {palloc(most * sizeof *said.texts), palloc(most * sizeof *said.values), 0};

    while (change < end || place < last) {
        if (change == end || (place < last && place->start <= change->start)) {
            say(&said, assumption_of(place++, aside->given));
            continue;
        }
        if (change->assumes != 0 && !is_blank(change, aside)) {
            say(&said, assumption_by(change, aside->left));
        }
        change++;
    }
    if (!has_acres(suggested) && twpg_depends_on_lots(reading->manner, text)) {
        say(&said, pstrdup(STANDARD_LOTS));
    }
    return PointerGetDatum(construct_array(said.values, said.count, TEXTOID, -1, false, TYPALIGN_INT));
}

static void add_value(twpg_row *row, Datum value) {
    row->values[row->count++] = value;
}

static void add_null(twpg_row *row) {
    row->nulls[row->count++] = true;
}

/* Adds the text of a reading. It is on one line, as canonical descriptions are in the database: line feeds mean no more
   than spaces in a description. */
static void add_text(twpg_row *row, const twpg_suggested *suggested, const township_reading *reading) {
    const uint8_t *text = suggested->bytes + reading->text;
    StringInfoData line;

    initStringInfo(&line);
    twpg_append_line(&line, text, text + reading->text_length);
    add_value(row, CStringGetTextDatum(twpg_from_utf8(line.data)));
}

static township_answer acres_of(const twpg_suggested *suggested, const township_reading *reading) {
    const uint8_t *text = suggested->bytes + reading->text;
    size_t length = (size_t)reading->text_length;

    return suggested->lots != NULL ? township_lots_acres(suggested->lots, text, length)
                                   : township_acres(suggested->plat, text, length, suggested->account);
}

/* Adds the acres of a reading. It can be refused, as one with the heading of another township, or with a lot that the
   table lacks. */
static void add_acres(twpg_row *row, const twpg_suggested *suggested, const township_reading *reading) {
    township_answer answer = acres_of(suggested, reading);

    if (answer.verdict == TOWNSHIP_ACCEPTED) {
        add_value(row, twpg_acres_datum(answer.hundredths));
    } else if (answer.verdict == TOWNSHIP_REFUSED) {
        add_null(row);
    } else {
        twpg_fail(answer.verdict);
    }
}

static twpg_row row_of(const twpg_suggested *suggested, const township_reading *reading) {
    twpg_row row = {{0}, {false}, 0};

    add_text(&row, suggested, reading);
    if (has_acres(suggested)) {
        add_acres(&row, suggested, reading);
    }
    add_value(&row, Int32GetDatum((int32)(reading->changes_length + suggested->aside.count)));
    add_value(&row, assumed_by(suggested, reading));
    add_null(&row);
    return row;
}

/* The row of a text without readings, with the reason if lots and aliquot parts can't describe the land. */
static twpg_row row_without_reading(const twpg_suggested *suggested) {
    const township_suggestion *sizes = &suggested->sizes;
    twpg_row row = {{0}, {false}, 0};
    int before_reason = has_acres(suggested) ? 4 : 3;

    while (row.count < before_reason) {
        add_null(&row);
    }
    if (sizes->reason_length == 0) {
        add_null(&row);
    } else {
        char *reason = twpg_text_in((const char *)suggested->bytes, sizes->reason, sizes->reason_length);

        add_value(&row, CStringGetTextDatum(reason));
    }
    return row;
}

static void put_row(ReturnSetInfo *result, twpg_row row) {
    tuplestore_putvalues(result->setResult, result->setDesc, row.values, row.nulls);
}

/* Returns the rows of a text. */
static Datum suggested_rows(FunctionCallInfo fcinfo, twpg_suggested *suggested) {
    ReturnSetInfo *result = twpg_begin_rows(fcinfo);
    uint64_t index;

    suggest(suggested);
    for (index = 0; index < suggested->sizes.readings; index++) {
        put_row(result, row_of(suggested, &suggested->readings[index]));
    }
    if (suggested->sizes.readings == 0) {
        put_row(result, row_without_reading(suggested));
    }
    PG_RETURN_NULL();
}

static Datum no_rows(FunctionCallInfo fcinfo) {
    twpg_begin_rows(fcinfo);
    PG_RETURN_NULL();
}

PG_FUNCTION_INFO_V1(twpg_suggest);
Datum twpg_suggest(PG_FUNCTION_ARGS) {
    twpg_suggested suggested = {.aside = twpg_whole_argument(fcinfo, 0)};

    return suggested_rows(fcinfo, &suggested);
}

PG_FUNCTION_INFO_V1(twpg_suggest_on_plat);
Datum twpg_suggest_on_plat(PG_FUNCTION_ARGS) {
    twpg_suggested suggested = {
        .aside = twpg_whole_argument(fcinfo, 1),
        .plat = PG_GETARG_PLAT(0),
        .account = twpg_account_of(PG_GETARG_TEXT_PP(2)),
    };

    return suggested_rows(fcinfo, &suggested);
}

PG_FUNCTION_INFO_V1(twpg_suggest_by_lots);
Datum twpg_suggest_by_lots(PG_FUNCTION_ARGS) {
    twpg_suggested suggested = {.aside = twpg_whole_argument(fcinfo, 1), .lots = PG_GETARG_LOTS(0)};

    return suggested_rows(fcinfo, &suggested);
}

/* The functions that follow take phrases after a text. They are not strict: without phrases, nothing is left out. */

PG_FUNCTION_INFO_V1(twpg_suggest_without);
Datum twpg_suggest_without(PG_FUNCTION_ARGS) {
    twpg_suggested suggested = {0};

    if (PG_ARGISNULL(0)) {
        return no_rows(fcinfo);
    }
    suggested.aside = twpg_argument_without(fcinfo, 0);
    return suggested_rows(fcinfo, &suggested);
}

PG_FUNCTION_INFO_V1(twpg_suggest_on_plat_without);
Datum twpg_suggest_on_plat_without(PG_FUNCTION_ARGS) {
    twpg_suggested suggested = {0};

    if (PG_ARGISNULL(0) || PG_ARGISNULL(1) || PG_ARGISNULL(3)) {
        return no_rows(fcinfo);
    }
    suggested.aside = twpg_argument_without(fcinfo, 1);
    suggested.plat = PG_GETARG_PLAT(0);
    suggested.account = twpg_account_of(PG_GETARG_TEXT_PP(3));
    return suggested_rows(fcinfo, &suggested);
}

PG_FUNCTION_INFO_V1(twpg_suggest_by_lots_without);
Datum twpg_suggest_by_lots_without(PG_FUNCTION_ARGS) {
    twpg_suggested suggested = {0};

    if (PG_ARGISNULL(0) || PG_ARGISNULL(1)) {
        return no_rows(fcinfo);
    }
    suggested.aside = twpg_argument_without(fcinfo, 1);
    suggested.lots = PG_GETARG_LOTS(0);
    return suggested_rows(fcinfo, &suggested);
}
