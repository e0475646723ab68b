/*
 * Land on the plat of a lot table: of a description, with the lots where the table has them, and its canonical
 * description by the table.
 */
#include "land.h"
#include "lots.h"

#include "miscadmin.h"

twpg_site twpg_site_of_lots(const township_lots *lots) {
    twpg_site site = {lots->township, lots->date, lots->mapped != 0};

    return site;
}

/* Whether a verdict says that land is not on the plat that measures or describes it. If land with lots of its own
   contains part of a lot of a table, it was read by another one. */
bool twpg_is_elsewhere(uint32_t verdict, const township_land *land) {
    return verdict == TOWNSHIP_OTHER_TOWNSHIP || verdict == TOWNSHIP_OTHER_PLAT ||
           (verdict == TOWNSHIP_NO_LAND && land->own_lots != 0);
}

/* What is wrong with a lot table and land that is elsewhere. */
twpg_explanation twpg_explain_on_table(uint32_t verdict, const township_lots *lots, const township_land *land) {
    twpg_explanation explained = {0, 0, "this land contains part of a lot of the lot table", NULL, NULL};
    twpg_site first = twpg_site_of_lots(lots);
    twpg_site second = twpg_site_of(land);

    return verdict == TOWNSHIP_NO_LAND ? explained : twpg_explain_two(verdict, &first, &second);
}

/* The error for a lot table and land that is elsewhere, or for another verdict. */
void twpg_fail_on_table(uint32_t verdict, const township_lots *lots, const township_land *land) {
    if (twpg_is_elsewhere(verdict, land)) {
        twpg_fail_of_site(twpg_explain_on_table(verdict, lots, land));
    }
    twpg_fail(verdict);
}

/* Makes sure that land is on the plat of a lot table, as the library says. That the table lacks the acreage of a lot does
   not matter. */
void twpg_check_on_table(const township_lots *lots, const township_land *land) {
    uint32_t verdict;

    check_stack_depth();
    verdict = township_lots_land_acres(lots, land).verdict;
    if (verdict != TOWNSHIP_ACCEPTED && verdict != TOWNSHIP_REFUSED) {
        twpg_fail_on_table(verdict, lots, land);
    }
}

/* A lot table whose date, if it has one, is a day that there is: the text of its land has the date. */
static const township_lots *dated(const township_lots *lots) {
    if (lots->date != 0 && !twpg_is_date(lots->date)) {
        twpg_fail(TOWNSHIP_NO_LOTS);
    }
    return lots;
}

/* The attempt to read the second argument by the first one. */
static twpg_attempt attempt_of(FunctionCallInfo fcinfo) {
    twpg_attempt attempt = {.lots = dated(PG_GETARG_LOTS(0)), .description = twpg_bytes_of_text(PG_GETARG_TEXT_PP(1))};

    return attempt;
}

/* The land of the second argument, or an error. Returns the table. */
static const township_lots *read_land(FunctionCallInfo fcinfo, township_land *land) {
    twpg_attempt attempt = attempt_of(fcinfo);

    if (!twpg_try_description(&attempt.lots->township, &attempt, land)) {
        twpg_refuse_land(&attempt.lots->township, &attempt);
    }
    return attempt.lots;
}

PG_FUNCTION_INFO_V1(twpg_land_by_lots);
Datum twpg_land_by_lots(PG_FUNCTION_ARGS) {
    township_land land;

    (void)read_land(fcinfo, &land);
    return twpg_land_datum(&land);
}

/* The same, or NULL if the description is refused. */
PG_FUNCTION_INFO_V1(twpg_land_by_lots_or_null);
Datum twpg_land_by_lots_or_null(PG_FUNCTION_ARGS) {
    twpg_attempt attempt = attempt_of(fcinfo);
    township_land land;

    if (twpg_try_description(&attempt.lots->township, &attempt, &land)) {
        return twpg_land_datum(&land);
    }
    if (attempt.answer.verdict == TOWNSHIP_REFUSED) {
        PG_RETURN_NULL();
    }
    twpg_fail(attempt.answer.verdict);
}

/* The canonical description of land, by a lot table of its plat. */
PG_FUNCTION_INFO_V1(twpg_normal_of_land_by_lots);
Datum twpg_normal_of_land_by_lots(PG_FUNCTION_ARGS) {
    township_land land;

    twpg_land_of(PG_GETARG_LAND(1), &land);
    PG_RETURN_TEXT_P(cstring_to_text(twpg_describe(&land, PG_GETARG_LOTS(0))));
}

/* The canonical description of the land described. */
PG_FUNCTION_INFO_V1(twpg_normal_by_lots);
Datum twpg_normal_by_lots(PG_FUNCTION_ARGS) {
    township_land land;
    const township_lots *lots = read_land(fcinfo, &land);

    PG_RETURN_TEXT_P(cstring_to_text(twpg_describe(&land, lots)));
}
