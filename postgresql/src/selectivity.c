/*
 * How many rows the planner has to expect where land is compared by &&, @>, or <@: with given land, or with that of
 * another table. It compares the samples of columns that ANALYZE has kept. An estimate never fails: land of a sample on
 * another plat of the township is passed over, although the operator would be an error.
 */
#include "land.h"

#include "access/htup_details.h"
#include "catalog/pg_statistic.h"
#include "miscadmin.h"
#include "utils/lsyscache.h"
#include "utils/selfuncs.h"

/* The share of pairs if nothing is known: one township out of a hundred, and there one section out of ten. */
#define USUAL_SHARE 0.001

/* Of two lands that touch the same section, about so many share a place. */
#define SHARE_IN_SECTION 0.4

/* As the server's own estimates for such operators have it: a histogram of fewer bounds than the first number says
   nothing; one of fewer than the second one counts less; and no estimate is surer than the third one. */
#define BOUNDS_LEAST 10
#define BOUNDS_ENOUGH 100
#define SHARE_LEAST 0.0001

Datum twpg_land_overlaps(PG_FUNCTION_ARGS);
Datum twpg_land_contains(PG_FUNCTION_ARGS);
Datum twpg_land_contained(PG_FUNCTION_ARGS);

/* The answer of an operator, or false for lands on two plats of one township. */
static Datum without_error(FunctionCallInfo fcinfo, PGFunction operator) {
    twpg_site first = twpg_site_of_packed(twpg_packed_of(PG_GETARG_LAND(0)));
    twpg_site second = twpg_site_of_packed(twpg_packed_of(PG_GETARG_LAND(1)));

    return twpg_compare_sites(&first, &second) == 0 ? operator(fcinfo) : BoolGetDatum(false);
}

static Datum overlaps_without_error(PG_FUNCTION_ARGS) {
    return without_error(fcinfo, twpg_land_overlaps);
}

static Datum contains_without_error(PG_FUNCTION_ARGS) {
    return without_error(fcinfo, twpg_land_contains);
}

static Datum contained_without_error(PG_FUNCTION_ARGS) {
    return without_error(fcinfo, twpg_land_contained);
}

/* Looks up the function of an operator, and puts one in its place that never fails. */
static void find_function(Oid operator, FmgrInfo *function) {
    static const struct {
        PGFunction operator;
        PGFunction without_error;
    } functions[] = {{twpg_land_overlaps, overlaps_without_error},
                     {twpg_land_contains, contains_without_error},
                     {twpg_land_contained, contained_without_error}};
    int index;

    fmgr_info(get_opcode(operator), function);
    for (index = 0; index < (int)lengthof(functions); index++) {
        if (function->fn_addr == functions[index].operator) {
            function->fn_addr = functions[index].without_error;
            return;
        }
    }
    elog(ERROR, "operator %u does not compare land", operator);
}

/* The share of a column's lands that compare so to given land: of its most common values, and of the others, of which
   the bounds of a histogram are a sample. */
static double share_of_column(VariableStatData *column, FmgrInfo *function, Datum given, bool is_first) {
    int bounds;
    double common_share;
    double common = mcv_selectivity(column, function, InvalidOid, given, is_first, &common_share);
    double others = histogram_selectivity(column, function, InvalidOid, given, is_first, BOUNDS_LEAST, 1, &bounds);
    double nulls = HeapTupleIsValid(column->statsTuple)
                       ? ((Form_pg_statistic)GETSTRUCT(column->statsTuple))->stanullfrac
                       : 0;

    if (others < 0) {
        others = DEFAULT_MATCHING_SEL;
    } else if (bounds < BOUNDS_ENOUGH) {
        double weight = (double)bounds / BOUNDS_ENOUGH;

        others = others * weight + DEFAULT_MATCHING_SEL * (1 - weight);
    }
    others = Min(Max(others, SHARE_LEAST), 1 - SHARE_LEAST);
    return common + others * (1 - nulls - common_share);
}

PG_FUNCTION_INFO_V1(twpg_land_restrictsel);
Datum twpg_land_restrictsel(PG_FUNCTION_ARGS) {
    PlannerInfo *root = (PlannerInfo *)PG_GETARG_POINTER(0);
    Oid operator = PG_GETARG_OID(1);
    List *arguments = (List *)PG_GETARG_POINTER(2);
    int relation = PG_GETARG_INT32(3);
    double share = DEFAULT_MATCHING_SEL;
    VariableStatData column;
    Node *other;
    bool is_first;

    if (!get_restriction_variable(root, arguments, relation, &column, &other, &is_first)) {
        PG_RETURN_FLOAT8(share);
    }
    if (IsA(other, Const)) {
        const Const *given = (const Const *)other;
        FmgrInfo function;

        find_function(operator, &function);
        share = given->constisnull ? 0 : share_of_column(&column, &function, given->constvalue, is_first);
    }
    ReleaseVariableStats(column);
    CLAMP_PROBABILITY(share);
    PG_RETURN_FLOAT8(share);
}

/* The sample of a column: the bounds of its histogram. Returns whether there is one. */
static bool sample_of(const VariableStatData *column, AttStatsSlot *sample) {
    return HeapTupleIsValid(column->statsTuple) &&
           get_attstatsslot(sample, column->statsTuple, STATISTIC_KIND_HISTOGRAM, InvalidOid, ATTSTATSSLOT_VALUES);
}

static twpg_packed packed_in(const AttStatsSlot *sample, int index) {
    return twpg_packed_of((const struct varlena *)PG_DETOAST_DATUM_PACKED(sample->values[index]));
}

/* The share of pairs of lands that share a place: the share of the pairs of the samples that are in one
   township, and of those that touch the same section of any township. The bounds of a histogram are apart
   from each other in the order of lands, so pairs for which both is so are too rare in samples. */
static double share_of_pairs(const AttStatsSlot *first, const AttStatsSlot *second) {
    double pairs = (double)first->nvalues * second->nvalues;
    double in_township = 0;
    double in_section = 0;
    int one;
    int other;

    for (one = 0; one < first->nvalues; one++) {
        twpg_packed here = packed_in(first, one);

        /* With the largest statistics target there are 100 million pairs. */
        CHECK_FOR_INTERRUPTS();
        for (other = 0; other < second->nvalues; other++) {
            twpg_packed there = packed_in(second, other);

            in_township += twpg_compare_townships(here.start, there.start) == 0;
            in_section += (twpg_sections_of(here) & twpg_sections_of(there)) != 0;
        }
    }
    return in_township / pairs * (in_section / pairs) * SHARE_IN_SECTION;
}

PG_FUNCTION_INFO_V1(twpg_land_joinsel);
Datum twpg_land_joinsel(PG_FUNCTION_ARGS) {
    PlannerInfo *root = (PlannerInfo *)PG_GETARG_POINTER(0);
    List *columns = (List *)PG_GETARG_POINTER(2);
    SpecialJoinInfo *join = (SpecialJoinInfo *)PG_GETARG_POINTER(4);
    VariableStatData first;
    VariableStatData second;
    AttStatsSlot one;
    AttStatsSlot other;
    double share = USUAL_SHARE;
    bool reversed;

    get_join_variables(root, columns, join, &first, &second, &reversed);
    if (sample_of(&first, &one)) {
        if (sample_of(&second, &other)) {
            share = share_of_pairs(&one, &other);
            free_attstatsslot(&other);
        }
        free_attstatsslot(&one);
    }
    ReleaseVariableStats(first);
    ReleaseVariableStats(second);
    CLAMP_PROBABILITY(share);
    PG_RETURN_FLOAT8(share);
}
