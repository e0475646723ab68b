/*
 * The aggregate overlaps(id, land): the pairs of ids whose lands share a place, as an array of pairs.
 */
#include "land.h"

#include "catalog/pg_type.h"
#include "miscadmin.h"
#include "utils/array.h"
#include "utils/datum.h"
#include "utils/lsyscache.h"

/* A land with its id, and where it comes in the input. */
typedef struct twpg_named {
    Datum id;
    struct varlena *land;
    int index;
} twpg_named;

typedef struct twpg_gathered {
    MemoryContext context;
    Oid type;
    int16 length;
    bool by_value;
    char alignment;
    int count;
    int room;
    twpg_named *lands;
} twpg_gathered;

static twpg_gathered *begin(FunctionCallInfo fcinfo, MemoryContext context) {
    twpg_gathered *gathered = MemoryContextAllocZero(context, sizeof *gathered);

    gathered->context = context;
    gathered->type = get_fn_expr_argtype(fcinfo->flinfo, 1);
    if (!OidIsValid(gathered->type)) {
        ereport(ERROR, (errcode(ERRCODE_INDETERMINATE_DATATYPE), errmsg("could not determine the type of the ids")));
    }
    get_typlenbyvalalign(gathered->type, &gathered->length, &gathered->by_value, &gathered->alignment);
    gathered->room = 64;
    gathered->lands = MemoryContextAlloc(context, (size_t)gathered->room * sizeof *gathered->lands);
    return gathered;
}

PG_FUNCTION_INFO_V1(twpg_overlaps_add);
Datum twpg_overlaps_add(PG_FUNCTION_ARGS) {
    MemoryContext context;
    MemoryContext before;
    twpg_gathered *gathered;
    twpg_named *added;

    if (!AggCheckCallContext(fcinfo, &context)) {
        elog(ERROR, "this function is part of an aggregate");
    }
    gathered = PG_ARGISNULL(0) ? begin(fcinfo, context) : (twpg_gathered *)PG_GETARG_POINTER(0);
    if (PG_ARGISNULL(1) || PG_ARGISNULL(2)) {
        PG_RETURN_POINTER(gathered);
    }
    before = MemoryContextSwitchTo(gathered->context);
    if (gathered->count == gathered->room) {
        gathered->room *= 2;
        gathered->lands = repalloc_huge(gathered->lands, (Size)gathered->room * sizeof *gathered->lands);
    }
    added = &gathered->lands[gathered->count];
    added->id = datumCopy(PG_GETARG_DATUM(1), gathered->by_value, gathered->length);
    added->land = PG_DETOAST_DATUM_COPY(PG_GETARG_DATUM(2));
    added->index = gathered->count++;
    MemoryContextSwitchTo(before);
    PG_RETURN_POINTER(gathered);
}

static int compare_townships_of(const twpg_named *first, const twpg_named *second) {
    return twpg_compare_townships(twpg_packed_of(first->land).start, twpg_packed_of(second->land).start);
}

static int compare_lands(const void *first, const void *second) {
    const twpg_named *one = first;
    const twpg_named *other = second;
    int order = compare_townships_of(one, other);

    return order != 0 ? order : one->index - other->index;
}

/* Adds the pairs of a land and those after it in its township. */
static ArrayBuildState *add_pairs(const twpg_gathered *gathered, int first, ArrayBuildState *ids) {
    const twpg_named *one = &gathered->lands[first];
    int second;

    for (second = first + 1; second < gathered->count; second++) {
        const twpg_named *other = &gathered->lands[second];

        if (compare_townships_of(one, other) != 0) {
            break;
        }
        if (twpg_share_a_place(one->land, other->land)) {
            ids = accumArrayResult(ids, one->id, false, gathered->type, CurrentMemoryContext);
            ids = accumArrayResult(ids, other->id, false, gathered->type, CurrentMemoryContext);
        }
    }
    return ids;
}

/* The ids as an array of pairs. */
static Datum pairs_datum(const twpg_gathered *gathered, ArrayBuildState *ids) {
    int dimensions[] = {ids->nelems / 2, 2};
    int bounds[] = {1, 1};

    return PointerGetDatum(construct_md_array(ids->dvalues, NULL, 2, dimensions, bounds, gathered->type,
                                              gathered->length, gathered->by_value, gathered->alignment));
}

PG_FUNCTION_INFO_V1(twpg_overlaps_pairs);
Datum twpg_overlaps_pairs(PG_FUNCTION_ARGS) {
    twpg_gathered gathered;
    ArrayBuildState *ids = NULL;
    int first;

    if (PG_ARGISNULL(0)) {
        PG_RETURN_NULL();
    }
    /* A copy, since the state of an aggregate must not change when it ends: it may go on in a window. */
    gathered = *(const twpg_gathered *)PG_GETARG_POINTER(0);
    gathered.lands = palloc_extended((Size)gathered.room * sizeof *gathered.lands, MCXT_ALLOC_HUGE);
    memcpy(gathered.lands, ((const twpg_gathered *)PG_GETARG_POINTER(0))->lands,
           (Size)gathered.count * sizeof *gathered.lands);
    qsort(gathered.lands, (size_t)gathered.count, sizeof *gathered.lands, compare_lands);
    for (first = 0; first < gathered.count; first++) {
        CHECK_FOR_INTERRUPTS();
        ids = add_pairs(&gathered, first, ids);
    }
    if (ids == NULL) {
        PG_RETURN_ARRAYTYPE_P(construct_empty_array(gathered.type));
    }
    return pairs_datum(&gathered, ids);
}
