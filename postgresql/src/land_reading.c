/*
 * Reading land: a description in a township with the standard lots, or on the plat of a lot table.
 */
#include "land.h"
#include "lots.h"

#include "miscadmin.h"

#define QUARTER_MILE 20000

/* The plat of a township in which all half miles are 40 chains. What a description names, and why it is
   refused, is the same on all plats of a township with the standard lots. */
township_plat twpg_even_plat(const township_designation *township) {
    township_plat plat;
    int line;

    for (line = 0; line < TOWNSHIP_LINES; line++) {
        plat.closing_quarters[line] = QUARTER_MILE;
    }
    plat.number = township->number;
    plat.north_south = township->north_south;
    plat.range = township->range;
    plat.east_west = township->east_west;
    return plat;
}

/* Reads a description. Returns whether it is accepted. */
bool twpg_try_description(const township_designation *township, twpg_attempt *attempt, township_land *land) {
    twpg_bytes description = attempt->description;

    check_stack_depth();
    attempt->answer = attempt->lots == NULL
                          ? township_land_read(township, description.start, description.length, land)
                          : township_lots_land_read(attempt->lots, description.start, description.length, land);
    return attempt->answer.verdict == TOWNSHIP_ACCEPTED;
}

/* Adds the land of a group of a long text, which may not share a place with what was before it. */
static bool try_group(twpg_attempt *attempt, township_land *land) {
    township_land before = *land;
    township_land added;
    uint32_t comparison = TOWNSHIP_DISJOINT;

    if (!twpg_try_description(&before.township, attempt, &added)) {
        return false;
    }
    attempt->answer = township_land_compare(&before, &added, &comparison);
    if (attempt->answer.verdict == TOWNSHIP_ACCEPTED && comparison != TOWNSHIP_DISJOINT) {
        attempt->is_named_twice = true;
        return false;
    }
    if (attempt->answer.verdict == TOWNSHIP_ACCEPTED) {
        attempt->answer = township_land_combine(&before, &added, TOWNSHIP_UNION, land);
    }
    return attempt->answer.verdict == TOWNSHIP_ACCEPTED;
}

/* The text up to the next semicolon, which `rest` loses. */
static twpg_bytes next_group(twpg_bytes *rest) {
    const uint8_t *semicolon = memchr(rest->start, ';', rest->length);
    size_t length = semicolon == NULL ? rest->length : (size_t)(semicolon - rest->start);
    size_t taken = Min(length + 1, rest->length);
    twpg_bytes group = {rest->start, length};

    rest->start += taken;
    rest->length -= taken;
    return group;
}

/* Reads a text that may be too long for a description: then its groups, which semicolons separate, one after another.
   Land of very many small parts has such a canonical text, and that has to be read again, as from a dump. Returns
   whether it is accepted. */
bool twpg_try_text(const township_designation *township, twpg_attempt *attempt, township_land *land) {
    twpg_bytes given = attempt->description;
    bool is_long = given.length > TOWNSHIP_DESCRIPTION_MOST;
    bool is_well;

    attempt->is_named_twice = false;
    attempt->description = is_long ? next_group(&given) : given;
    is_well = twpg_try_description(township, attempt, land);
    while (is_long && is_well && given.length > 0) {
        CHECK_FOR_INTERRUPTS();
        attempt->description = next_group(&given);
        is_well = try_group(attempt, land);
    }
    return is_well;
}

/* Why an attempt was refused. */
twpg_explanation twpg_explain_attempt(const township_designation *township, const twpg_attempt *attempt) {
    township_plat plat;

    if (attempt->lots != NULL) {
        return twpg_explain_by_lots(attempt->lots, attempt->description);
    }
    plat = twpg_even_plat(township);
    return twpg_explain_description(&plat, attempt->description);
}

/* The error of an attempt that failed. */
void twpg_refuse_land(const township_designation *township, const twpg_attempt *attempt) {
    if (attempt->is_named_twice) {
        ereport(ERROR, (errcode(twpg_sqlstate_of(TOWNSHIP_REFUSAL_LAND_OVERLAP)),
                        errmsg("this description names the same land twice")));
    }
    if (attempt->answer.verdict == TOWNSHIP_REFUSED) {
        twpg_explanation explained = twpg_explain_attempt(township, attempt);

        twpg_refuse(attempt->answer, &explained);
    }
    twpg_fail(attempt->answer.verdict);
}

/* The land of a description, or an error. */
static Datum land_read(const township_designation *township, twpg_bytes description) {
    twpg_attempt attempt = {.description = description};
    township_land land;

    if (!twpg_try_description(township, &attempt, &land)) {
        twpg_refuse_land(township, &attempt);
    }
    return twpg_land_datum(&land);
}

static township_designation township_of(const township_plat *plat) {
    township_designation township = {plat->number, plat->north_south, plat->range, plat->east_west};

    return township;
}

/* The land of a description in the township of a plat. */
PG_FUNCTION_INFO_V1(twpg_land_on_plat);
Datum twpg_land_on_plat(PG_FUNCTION_ARGS) {
    township_designation township = township_of(PG_GETARG_PLAT(0));

    return land_read(&township, twpg_bytes_of_text(PG_GETARG_TEXT_PP(1)));
}

/* The land of a description in a township that is named. */
PG_FUNCTION_INFO_V1(twpg_land_in_township);
Datum twpg_land_in_township(PG_FUNCTION_ARGS) {
    township_designation township = twpg_township_of(PG_GETARG_TEXT_PP(0));

    return land_read(&township, twpg_bytes_of_text(PG_GETARG_TEXT_PP(1)));
}

/* The land of the second argument in a township, or NULL if the description is refused. */
static Datum land_or_null(FunctionCallInfo fcinfo, const township_designation *township) {
    twpg_attempt attempt = {.description = twpg_bytes_of_text(PG_GETARG_TEXT_PP(1))};
    township_land land;

    if (twpg_try_description(township, &attempt, &land)) {
        return twpg_land_datum(&land);
    }
    if (attempt.answer.verdict == TOWNSHIP_REFUSED) {
        PG_RETURN_NULL();
    }
    twpg_fail(attempt.answer.verdict);
}

/* The same, or NULL if the first argument names no township. */
PG_FUNCTION_INFO_V1(twpg_land_or_null);
Datum twpg_land_or_null(PG_FUNCTION_ARGS) {
    township_designation township;

    if (!twpg_find_township(PG_GETARG_TEXT_PP(0), &township)) {
        PG_RETURN_NULL();
    }
    return land_or_null(fcinfo, &township);
}

PG_FUNCTION_INFO_V1(twpg_land_on_plat_or_null);
Datum twpg_land_on_plat_or_null(PG_FUNCTION_ARGS) {
    township_designation township = township_of(PG_GETARG_PLAT(0));

    return land_or_null(fcinfo, &township);
}

/* Why a description is refused in a township that is named, or NULL. */
PG_FUNCTION_INFO_V1(twpg_refusal_in_township);
Datum twpg_refusal_in_township(PG_FUNCTION_ARGS) {
    township_designation township = twpg_township_of(PG_GETARG_TEXT_PP(0));
    township_plat plat = twpg_even_plat(&township);

    return twpg_refusal_on(fcinfo, &plat, twpg_bytes_of_text(PG_GETARG_TEXT_PP(1)));
}

