/*
 * Refusals and notes as records, for those who go through many descriptions: an error would end their
 * statement.
 */
#include "twpg.h"

#include "miscadmin.h"

/* A text in a record, which may be missing. */
static void set_text(Datum *value, bool *is_null, const char *text) {
    *is_null = text == NULL;
    if (text != NULL) {
        *value = CStringGetTextDatum(text);
    }
}

/* A line or a column, which is 0 if there is none. */
static void set_count(Datum *value, bool *is_null, uint32_t count) {
    *is_null = count == 0;
    *value = Int32GetDatum((int32)count);
}

/* The record of a refusal: its number and place, and the parts of its explanation. */
Datum twpg_refusal_datum(FunctionCallInfo fcinfo, township_answer answer, const twpg_explanation *explained) {
    Datum values[7];
    bool nulls[7] = {false};

    values[0] = Int32GetDatum((int32)answer.number);
    values[1] = Int32GetDatum((int32)answer.at);
    set_count(&values[2], &nulls[2], explained->line);
    set_count(&values[3], &nulls[3], explained->column);
    set_text(&values[4], &nulls[4], explained->sentence);
    set_text(&values[5], &nulls[5], explained->excerpt);
    set_text(&values[6], &nulls[6], explained->help);
    return twpg_record_datum(fcinfo, values, nulls);
}

/* The refusal of a description on a plat, or NULL. */
Datum twpg_refusal_on(FunctionCallInfo fcinfo, const township_plat *plat, twpg_bytes description) {
    twpg_explanation explained;
    township_answer answer;

    check_stack_depth();
    answer = township_acres(plat, description.start, description.length, TOWNSHIP_EXACT);
    if (answer.verdict == TOWNSHIP_ACCEPTED) {
        PG_RETURN_NULL();
    }
    if (answer.verdict != TOWNSHIP_REFUSED) {
        twpg_fail(answer.verdict);
    }
    explained = twpg_explain_description(plat, description);
    return twpg_refusal_datum(fcinfo, answer, &explained);
}

PG_FUNCTION_INFO_V1(twpg_refusal);
Datum twpg_refusal(PG_FUNCTION_ARGS) {
    return twpg_refusal_on(fcinfo, PG_GETARG_PLAT(0), twpg_bytes_of_text(PG_GETARG_TEXT_PP(1)));
}

PG_FUNCTION_INFO_V1(twpg_refusal_of_notes);
Datum twpg_refusal_of_notes(PG_FUNCTION_ARGS) {
    twpg_bytes notes = twpg_bytes_of_text(PG_GETARG_TEXT_PP(0));
    twpg_explanation explained;
    township_plat plat;
    township_answer answer;

    check_stack_depth();
    answer = township_read(notes.start, notes.length, &plat);
    if (answer.verdict == TOWNSHIP_ACCEPTED) {
        PG_RETURN_NULL();
    }
    if (answer.verdict != TOWNSHIP_REFUSED) {
        twpg_fail(answer.verdict);
    }
    explained = twpg_explain_notes(notes);
    return twpg_refusal_datum(fcinfo, answer, &explained);
}

/* The record of a note on an accepted description with a place that can be read in two ways, or NULL if it has none. */
Datum twpg_note_datum(FunctionCallInfo fcinfo, const twpg_explanation *explained) {
    Datum values[5];
    bool nulls[5] = {false};

    if (explained->sentence[0] == '\0') {
        PG_RETURN_NULL();
    }
    set_count(&values[0], &nulls[0], explained->line);
    set_count(&values[1], &nulls[1], explained->column);
    set_text(&values[2], &nulls[2], explained->sentence);
    set_text(&values[3], &nulls[3], explained->excerpt);
    set_text(&values[4], &nulls[4], explained->help);
    return twpg_record_datum(fcinfo, values, nulls);
}

/* The note on a description. A refused one has none. */
PG_FUNCTION_INFO_V1(twpg_notes);
Datum twpg_notes(PG_FUNCTION_ARGS) {
    const township_plat *plat = PG_GETARG_PLAT(0);
    twpg_bytes description = twpg_bytes_of_text(PG_GETARG_TEXT_PP(1));
    twpg_explanation explained;

    check_stack_depth();
    if (township_acres(plat, description.start, description.length, TOWNSHIP_EXACT).verdict == TOWNSHIP_REFUSED) {
        PG_RETURN_NULL();
    }
    explained = twpg_explain_description(plat, description);
    return twpg_note_datum(fcinfo, &explained);
}
