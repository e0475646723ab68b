/*
 * The acres and the exact area of land, on a plat or by a lot table, and why a lot table gives none.
 */
#include "land.h"
#include "lots.h"

#include "miscadmin.h"

/* Land, and what measures it: a plat, by an account, or a lot table if there is no plat. */
typedef struct twpg_measured {
    township_land land;
    const township_plat *plat;
    uint32_t account;
    const township_lots *lots;
} twpg_measured;

/* The second argument. The library needs much of the stack, so there must be some. */
static void get_land(FunctionCallInfo fcinfo, twpg_measured *measured) {
    check_stack_depth();
    twpg_land_of(PG_GETARG_LAND(1), &measured->land);
}

static void get_on_plat(FunctionCallInfo fcinfo, twpg_measured *measured) {
    get_land(fcinfo, measured);
    measured->plat = PG_GETARG_PLAT(0);
    measured->account = twpg_account_of(PG_GETARG_TEXT_PP(2));
    measured->lots = NULL;
}

static void get_by_lots(FunctionCallInfo fcinfo, twpg_measured *measured) {
    get_land(fcinfo, measured);
    measured->plat = NULL;
    measured->account = TOWNSHIP_EXACT;
    measured->lots = PG_GETARG_LOTS(0);
}

static township_answer acres_of(const twpg_measured *measured) {
    return measured->plat != NULL ? township_land_acres(measured->plat, &measured->land, measured->account)
                                  : township_lots_land_acres(measured->lots, &measured->land);
}

static township_answer area_of(const twpg_measured *measured, township_fraction *area) {
    return measured->plat != NULL ? township_land_area(measured->plat, &measured->land, measured->account, area)
                                  : township_lots_land_area(measured->lots, &measured->land, area);
}

/* The error for any verdict but ACCEPTED and REFUSED. */
_Noreturn static void fail(uint32_t verdict, const twpg_measured *measured) {
    twpg_site land = twpg_site_of(&measured->land);
    twpg_site plat;

    if (measured->lots != NULL) {
        twpg_fail_on_table(verdict, measured->lots, &measured->land);
    }
    if (verdict == TOWNSHIP_OTHER_PLAT) {
        twpg_fail_of_own_lots("Measure it by its lot table: acres(lots, land) or area(lots, land).");
    }
    plat = twpg_site_of_plat(measured->plat);
    twpg_fail_of_two(verdict, &plat, &land);
}

/* The error for any verdict but ACCEPTED. Land is refused only by a lot table, which lacks one of its lots. */
static void check(township_answer answer, const twpg_measured *measured) {
    if (answer.verdict == TOWNSHIP_REFUSED) {
        twpg_explanation explained = twpg_explain_lacking(measured->lots, answer.at);

        twpg_refuse(answer, &explained);
    }
    if (answer.verdict != TOWNSHIP_ACCEPTED) {
        fail(answer.verdict, measured);
    }
}

static Datum acres(const twpg_measured *measured) {
    township_answer answer = acres_of(measured);

    check(answer, measured);
    return twpg_acres_datum(answer.hundredths);
}

/* The same, or NULL if the lot table lacks a lot of the land, or if the land is on another plat. */
static Datum acres_or_null(FunctionCallInfo fcinfo, const twpg_measured *measured) {
    township_answer answer = acres_of(measured);

    if (answer.verdict == TOWNSHIP_REFUSED || twpg_is_elsewhere(answer.verdict, &measured->land)) {
        PG_RETURN_NULL();
    }
    check(answer, measured);
    return twpg_acres_datum(answer.hundredths);
}

static Datum area(FunctionCallInfo fcinfo, const twpg_measured *measured) {
    township_fraction found = {0, 0, 1};

    check(area_of(measured, &found), measured);
    return twpg_area_datum(fcinfo, &found);
}

/* A function of land for SQL: how it gets its arguments, and its value for them. */
#define OF_LAND(name, get, value)                                                                                     \
    PG_FUNCTION_INFO_V1(name);                                                                                        \
    Datum name(PG_FUNCTION_ARGS) {                                                                                    \
        twpg_measured measured;                                                                                       \
                                                                                                                      \
        get(fcinfo, &measured);                                                                                       \
        return value;                                                                                                 \
    }

OF_LAND(twpg_acres_of_land, get_on_plat, acres(&measured))
OF_LAND(twpg_acres_of_land_or_null, get_on_plat, acres_or_null(fcinfo, &measured))
OF_LAND(twpg_area_of_land, get_on_plat, area(fcinfo, &measured))
OF_LAND(twpg_acres_of_land_by_lots, get_by_lots, acres(&measured))
OF_LAND(twpg_acres_of_land_by_lots_or_null, get_by_lots, acres_or_null(fcinfo, &measured))
OF_LAND(twpg_area_of_land_by_lots, get_by_lots, area(fcinfo, &measured))

/* Why a lot table gives no acres, or NULL. A table of another plat has a number, but no place. */
PG_FUNCTION_INFO_V1(twpg_refusal_of_land_by_lots);
Datum twpg_refusal_of_land_by_lots(PG_FUNCTION_ARGS) {
    twpg_explanation explained;
    twpg_measured measured;
    township_answer answer;

    get_by_lots(fcinfo, &measured);
    answer = acres_of(&measured);
    if (answer.verdict == TOWNSHIP_ACCEPTED) {
        PG_RETURN_NULL();
    }
    if (twpg_is_elsewhere(answer.verdict, &measured.land)) {
        answer.number = TWPG_OTHER_SITE;
        explained = twpg_explain_on_table(answer.verdict, measured.lots, &measured.land);
    } else if (answer.verdict == TOWNSHIP_REFUSED) {
        explained = twpg_explain_lacking(measured.lots, answer.at);
    } else {
        twpg_fail(answer.verdict);
    }
    return twpg_refusal_datum(fcinfo, answer, &explained);
}
