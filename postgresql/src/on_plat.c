/*
 * The answers on a plat: acres, the exact area, and the canonical text of a description, and what is wrong
 * with it or unclear in it.
 */
#include "twpg.h"

#include "miscadmin.h"

/* The first two arguments. The library needs much of the stack, so there must be some. */
static twpg_described described(FunctionCallInfo fcinfo) {
    twpg_described land = {PG_GETARG_PLAT(0), twpg_bytes_of_text(PG_GETARG_TEXT_PP(1))};

    check_stack_depth();
    return land;
}

/* The error for any verdict but ACCEPTED. */
static void check(township_answer answer, const twpg_described *land) {
    if (answer.verdict == TOWNSHIP_REFUSED) {
        twpg_explanation explained = twpg_explain_description(land->plat, land->description);

        twpg_refuse(answer, &explained);
    }
    if (answer.verdict != TOWNSHIP_ACCEPTED) {
        twpg_fail(answer.verdict);
    }
}

static township_answer acres_of(FunctionCallInfo fcinfo, const twpg_described *land) {
    return township_acres(land->plat, land->description.start, land->description.length,
                          twpg_account_of(PG_GETARG_TEXT_PP(2)));
}

PG_FUNCTION_INFO_V1(twpg_acres);
Datum twpg_acres(PG_FUNCTION_ARGS) {
    twpg_described land = described(fcinfo);
    township_answer answer = acres_of(fcinfo, &land);

    check(answer, &land);
    return twpg_acres_datum(answer.hundredths);
}

PG_FUNCTION_INFO_V1(twpg_acres_or_null);
Datum twpg_acres_or_null(PG_FUNCTION_ARGS) {
    twpg_described land = described(fcinfo);
    township_answer answer = acres_of(fcinfo, &land);

    if (answer.verdict == TOWNSHIP_REFUSED) {
        PG_RETURN_NULL();
    }
    check(answer, &land);
    return twpg_acres_datum(answer.hundredths);
}

PG_FUNCTION_INFO_V1(twpg_area);
Datum twpg_area(PG_FUNCTION_ARGS) {
    twpg_described land = described(fcinfo);
    township_fraction area = {0, 0, 1};

    check(township_area(land.plat, land.description.start, land.description.length,
                        twpg_account_of(PG_GETARG_TEXT_PP(2)), &area),
          &land);
    return twpg_area_datum(fcinfo, &area);
}

static township_answer write_normal(const void *given, uint8_t *text, size_t room) {
    const twpg_described *land = given;

    return township_normal(land->plat, land->description.start, land->description.length, text, room);
}

PG_FUNCTION_INFO_V1(twpg_normal);
Datum twpg_normal(PG_FUNCTION_ARGS) {
    twpg_described land = described(fcinfo);
    char *text;

    check(twpg_write(write_normal, &land, &text), &land);
    PG_RETURN_TEXT_P(cstring_to_text(twpg_one_line(text)));
}
