/*
 * Operations on lands: union, intersection, difference, comparison as sets of places, and the order and the
 * hash for indexes. What can be seen from the sections that two lands touch is answered without unpacking
 * them; everything else the library answers.
 */
#include "land.h"

#include "common/hashfn.h"
#include "miscadmin.h"

/* Whether two lands are in one township. If they are on two plats of it, that is an error, whatever their places
   are. */
static bool in_one_township(twpg_packed first, twpg_packed second) {
    twpg_site one;
    twpg_site other;

    if (twpg_compare_townships(first.start, second.start) != 0) {
        return false;
    }
    one = twpg_site_of_packed(first);
    other = twpg_site_of_packed(second);
    if (twpg_compare_sites(&one, &other) != 0) {
        twpg_fail_of_two(TOWNSHIP_OTHER_PLAT, &one, &other);
    }
    return true;
}

/* The error for two lands that the library doesn't combine or compare. */
_Noreturn static void fail(uint32_t verdict, const township_land *first, const township_land *second) {
    twpg_site one = twpg_site_of(first);
    twpg_site other = twpg_site_of(second);

    twpg_fail_of_two(verdict, &one, &other);
}

/* Combines two lands. Lands in two different townships, or on two plats of one, are an error. */
static Datum combined(FunctionCallInfo fcinfo, uint32_t operation) {
    township_land first;
    township_land second;
    township_land land;
    uint32_t verdict;

    check_stack_depth();
    twpg_land_of(PG_GETARG_LAND(0), &first);
    twpg_land_of(PG_GETARG_LAND(1), &second);
    verdict = township_land_combine(&first, &second, operation, &land).verdict;
    if (verdict != TOWNSHIP_ACCEPTED) {
        fail(verdict, &first, &second);
    }
    return twpg_land_datum(&land);
}

PG_FUNCTION_INFO_V1(twpg_land_union);
Datum twpg_land_union(PG_FUNCTION_ARGS) {
    return combined(fcinfo, TOWNSHIP_UNION);
}

PG_FUNCTION_INFO_V1(twpg_land_intersection);
Datum twpg_land_intersection(PG_FUNCTION_ARGS) {
    return combined(fcinfo, TOWNSHIP_INTERSECTION);
}

PG_FUNCTION_INFO_V1(twpg_land_difference);
Datum twpg_land_difference(PG_FUNCTION_ARGS) {
    return combined(fcinfo, TOWNSHIP_DIFFERENCE);
}

/* Compares two lands on one plat as sets of places. */
static uint32_t comparison_of(const struct varlena *first, const struct varlena *second) {
    township_land one;
    township_land other;
    uint32_t comparison = TOWNSHIP_DISJOINT;
    uint32_t verdict;

    check_stack_depth();
    twpg_land_of(first, &one);
    twpg_land_of(second, &other);
    verdict = township_land_compare(&one, &other, &comparison).verdict;
    if (verdict != TOWNSHIP_ACCEPTED) {
        fail(verdict, &one, &other);
    }
    return comparison;
}

/* Whether two lands share a place. Lands that share no section don't. */
bool twpg_share_a_place(const struct varlena *first, const struct varlena *second) {
    twpg_packed one = twpg_packed_of(first);
    twpg_packed other = twpg_packed_of(second);

    return in_one_township(one, other) && (twpg_sections_of(one) & twpg_sections_of(other)) != 0 &&
           comparison_of(first, second) != TOWNSHIP_DISJOINT;
}

/* Whether the first land contains the second one, or is the same. One that lacks a section of the other
   doesn't. */
static bool contains(const struct varlena *first, const struct varlena *second) {
    twpg_packed one = twpg_packed_of(first);
    twpg_packed other = twpg_packed_of(second);
    uint32_t comparison;

    if (!in_one_township(one, other) || (twpg_sections_of(other) & ~twpg_sections_of(one)) != 0) {
        return false;
    }
    if (twpg_sections_of(other) == 0) {
        return true;
    }
    comparison = comparison_of(first, second);
    return comparison == TOWNSHIP_EQUAL || comparison == TOWNSHIP_CONTAINS;
}

PG_FUNCTION_INFO_V1(twpg_land_overlaps);
Datum twpg_land_overlaps(PG_FUNCTION_ARGS) {
    PG_RETURN_BOOL(twpg_share_a_place(PG_GETARG_LAND(0), PG_GETARG_LAND(1)));
}

PG_FUNCTION_INFO_V1(twpg_land_contains);
Datum twpg_land_contains(PG_FUNCTION_ARGS) {
    PG_RETURN_BOOL(contains(PG_GETARG_LAND(0), PG_GETARG_LAND(1)));
}

PG_FUNCTION_INFO_V1(twpg_land_contained);
Datum twpg_land_contained(PG_FUNCTION_ARGS) {
    PG_RETURN_BOOL(contains(PG_GETARG_LAND(1), PG_GETARG_LAND(0)));
}

PG_FUNCTION_INFO_V1(twpg_land_is_empty);
Datum twpg_land_is_empty(PG_FUNCTION_ARGS) {
    PG_RETURN_BOOL(twpg_sections_of(twpg_packed_of(PG_GETARG_LAND(0))) == 0);
}

/* The order of lands: by township and plat; on one plat, first the one that touches the first section that the
   other one doesn't; and if they touch the same ones, by their bytes, which are the same only for the same
   land. */
static int order_of(twpg_packed first, twpg_packed second) {
    twpg_site here = twpg_site_of_packed(first);
    twpg_site there = twpg_site_of_packed(second);
    int order = twpg_compare_sites(&here, &there);
    uint64_t one = twpg_sections_of(first);
    uint64_t differ = one ^ twpg_sections_of(second);

    if (order != 0) {
        return order;
    }
    if (differ != 0) {
        return (one & differ & (~differ + 1)) != 0 ? -1 : 1;
    }
    order = memcmp(first.start, second.start, Min(first.length, second.length));
    return order != 0 ? order : (first.length > second.length) - (first.length < second.length);
}

/* A sort calls this for many lands before any memory is freed, so copies of compressed lands are freed here. */
static int compare(FunctionCallInfo fcinfo) {
    struct varlena *first = PG_GETARG_LAND(0);
    struct varlena *second = PG_GETARG_LAND(1);
    int order = order_of(twpg_packed_of(first), twpg_packed_of(second));

    PG_FREE_IF_COPY(first, 0);
    PG_FREE_IF_COPY(second, 1);
    return order;
}

TWPG_COMPARISONS(twpg_land)

PG_FUNCTION_INFO_V1(twpg_land_smaller);
Datum twpg_land_smaller(PG_FUNCTION_ARGS) {
    PG_RETURN_DATUM(PG_GETARG_DATUM(compare(fcinfo) <= 0 ? 0 : 1));
}

PG_FUNCTION_INFO_V1(twpg_land_larger);
Datum twpg_land_larger(PG_FUNCTION_ARGS) {
    PG_RETURN_DATUM(PG_GETARG_DATUM(compare(fcinfo) >= 0 ? 0 : 1));
}

PG_FUNCTION_INFO_V1(twpg_land_hash);
Datum twpg_land_hash(PG_FUNCTION_ARGS) {
    struct varlena *land = PG_GETARG_LAND(0);
    twpg_packed packed = twpg_packed_of(land);
    Datum hash = hash_any(packed.start, (int)packed.length);

    PG_FREE_IF_COPY(land, 0);
    return hash;
}

PG_FUNCTION_INFO_V1(twpg_land_hash_extended);
Datum twpg_land_hash_extended(PG_FUNCTION_ARGS) {
    struct varlena *land = PG_GETARG_LAND(0);
    twpg_packed packed = twpg_packed_of(land);
    Datum hash = hash_any_extended(packed.start, (int)packed.length, (uint64)PG_GETARG_INT64(1));

    PG_FREE_IF_COPY(land, 0);
    return hash;
}
