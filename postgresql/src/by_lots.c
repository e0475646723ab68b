/*
 * The answers by a lot table to a description: acres, the exact area, and why there are none; and what is unclear in
 * it. Each whole lot counts at its returned acreage.
 */
#include "land.h"
#include "lots.h"

#include "miscadmin.h"

/* Why a description is refused: the table lacks a lot of its land, or the reason is in the text. */
static twpg_explanation explanation_of(township_answer answer, const township_lots *lots, twpg_bytes description) {
    return answer.number == TOWNSHIP_REFUSAL_LOTS_LACKING ? twpg_explain_lacking(lots, answer.at)
                                                          : twpg_explain_by_lots(lots, description);
}

/* The error for any verdict but ACCEPTED. */
static void check(township_answer answer, const township_lots *lots, twpg_bytes description) {
    if (answer.verdict == TOWNSHIP_REFUSED) {
        twpg_explanation explained = explanation_of(answer, lots, description);

        twpg_refuse(answer, &explained);
    }
    if (answer.verdict != TOWNSHIP_ACCEPTED) {
        twpg_fail(answer.verdict);
    }
}

static township_answer acres_of(const township_lots *lots, twpg_bytes description) {
    check_stack_depth();
    return township_lots_acres(lots, description.start, description.length);
}

PG_FUNCTION_INFO_V1(twpg_acres_by_lots);
Datum twpg_acres_by_lots(PG_FUNCTION_ARGS) {
    const township_lots *lots = PG_GETARG_LOTS(0);
    twpg_bytes description = twpg_bytes_of_text(PG_GETARG_TEXT_PP(1));
    township_answer answer = acres_of(lots, description);

    check(answer, lots, description);
    return twpg_acres_datum(answer.hundredths);
}

PG_FUNCTION_INFO_V1(twpg_acres_by_lots_or_null);
Datum twpg_acres_by_lots_or_null(PG_FUNCTION_ARGS) {
    const township_lots *lots = PG_GETARG_LOTS(0);
    twpg_bytes description = twpg_bytes_of_text(PG_GETARG_TEXT_PP(1));
    township_answer answer = acres_of(lots, description);

    if (answer.verdict == TOWNSHIP_REFUSED) {
        PG_RETURN_NULL();
    }
    check(answer, lots, description);
    return twpg_acres_datum(answer.hundredths);
}

PG_FUNCTION_INFO_V1(twpg_area_by_lots);
Datum twpg_area_by_lots(PG_FUNCTION_ARGS) {
    const township_lots *lots = PG_GETARG_LOTS(0);
    twpg_bytes description = twpg_bytes_of_text(PG_GETARG_TEXT_PP(1));
    township_fraction area = {0, 0, 1};

    check_stack_depth();
    check(township_lots_area(lots, description.start, description.length, &area), lots, description);
    return twpg_area_datum(fcinfo, &area);
}

/* The note on a description. A refused one has none. */
PG_FUNCTION_INFO_V1(twpg_notes_by_lots);
Datum twpg_notes_by_lots(PG_FUNCTION_ARGS) {
    const township_lots *lots = PG_GETARG_LOTS(0);
    twpg_bytes description = twpg_bytes_of_text(PG_GETARG_TEXT_PP(1));
    twpg_explanation explained;

    if (acres_of(lots, description).verdict == TOWNSHIP_REFUSED) {
        PG_RETURN_NULL();
    }
    explained = twpg_explain_by_lots(lots, description);
    return twpg_note_datum(fcinfo, &explained);
}

/* Why a description is refused by a lot table, or NULL. */
PG_FUNCTION_INFO_V1(twpg_refusal_by_lots);
Datum twpg_refusal_by_lots(PG_FUNCTION_ARGS) {
    const township_lots *lots = PG_GETARG_LOTS(0);
    twpg_bytes description = twpg_bytes_of_text(PG_GETARG_TEXT_PP(1));
    township_answer answer = acres_of(lots, description);
    twpg_explanation explained;

    if (answer.verdict == TOWNSHIP_ACCEPTED) {
        PG_RETURN_NULL();
    }
    if (answer.verdict != TOWNSHIP_REFUSED) {
        twpg_fail(answer.verdict);
    }
    explained = explanation_of(answer, lots, description);
    return twpg_refusal_datum(fcinfo, answer, &explained);
}
