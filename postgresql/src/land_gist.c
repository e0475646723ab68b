/*
 * The GiST operator class of lands. An index finds the lands whose keys allow an answer; the operator itself
 * is asked again for each of them, so the answers are exact.
 */
#include "land_key.h"

#include "access/gist.h"
#include "access/stratnum.h"
#include "utils/sortsupport.h"

/* The key of a query, and the land that it is of: an index scan asks about the same one for each entry. */
typedef struct twpg_query {
    twpg_key key;
    size_t length;
    char land[FLEXIBLE_ARRAY_MEMBER];
} twpg_query;

static const twpg_key *key_of_query(FunctionCallInfo fcinfo) {
    const struct varlena *land = PG_GETARG_LAND(1);
    twpg_query *query = fcinfo->flinfo->fn_extra;
    size_t length = VARSIZE_ANY(land);

    if (query == NULL || query->length != length || memcmp(query->land, land, length) != 0) {
        if (query != NULL) {
            pfree(query);
        }
        fcinfo->flinfo->fn_extra = NULL;
        query = MemoryContextAlloc(fcinfo->flinfo->fn_mcxt, offsetof(twpg_query, land) + length);
        query->key = twpg_key_of(land);
        query->length = length;
        memcpy(query->land, land, length);
        fcinfo->flinfo->fn_extra = query;
    }
    return &query->key;
}

/* Whether a land under a key of an inner page may be an answer. */
static bool may_have_answer(const twpg_key *key, const twpg_key *query, StrategyNumber strategy) {
    switch (strategy) {
    case RTOverlapStrategyNumber:
        return twpg_keys_share(key, query);
    case RTContainsStrategyNumber:
        return twpg_keys_nested(key, query);
    case RTContainedByStrategyNumber:
        return key->has_empty || twpg_keys_share(key, query);
    case RTSameStrategyNumber:
        return twpg_keys_nested(key, query) && (key->has_empty || !query->has_empty);
    default:
        elog(ERROR, "unknown strategy %d of an index on land", strategy);
    }
}

/* Whether a land with this key may be an answer. */
static bool may_be_answer(const twpg_key *key, const twpg_key *query, StrategyNumber strategy) {
    switch (strategy) {
    case RTContainedByStrategyNumber:
        return twpg_keys_nested(query, key);
    case RTSameStrategyNumber:
        return twpg_keys_nested(key, query) && twpg_keys_nested(query, key);
    default:
        return may_have_answer(key, query, strategy);
    }
}

/* Whether land under a key may be on another plat than a query's in the same township. Then the operator has to be
   asked, whatever places they have: it fails, so that no constraint passes over such land. Only `=` never fails. */
static bool may_fail(const twpg_key *key, const twpg_key *query, StrategyNumber strategy) {
    return strategy != RTSameStrategyNumber && !twpg_keys_on_one_plat(key, query);
}

PG_FUNCTION_INFO_V1(twpg_land_consistent);
Datum twpg_land_consistent(PG_FUNCTION_ARGS) {
    const GISTENTRY *entry = (const GISTENTRY *)PG_GETARG_POINTER(0);
    const twpg_key *query = key_of_query(fcinfo);
    StrategyNumber strategy = PG_GETARG_UINT16(2);
    bool *recheck = (bool *)PG_GETARG_POINTER(4);
    twpg_key key;

    *recheck = true;
    if (!twpg_is_covered(entry->key, query->least)) {
        PG_RETURN_BOOL(false);
    }
    key = twpg_unpack_key(entry->key);
    if (may_fail(&key, query, strategy)) {
        PG_RETURN_BOOL(true);
    }
    PG_RETURN_BOOL(GIST_LEAF(entry) ? may_be_answer(&key, query, strategy) : may_have_answer(&key, query, strategy));
}

PG_FUNCTION_INFO_V1(twpg_land_key_union);
Datum twpg_land_key_union(PG_FUNCTION_ARGS) {
    const GistEntryVector *entries = (const GistEntryVector *)PG_GETARG_POINTER(0);
    int *size = (int *)PG_GETARG_POINTER(1);
    twpg_key key = twpg_unpack_key(entries->vector[0].key);
    bytea *stored;
    int index;

    for (index = 1; index < entries->n; index++) {
        twpg_key other = twpg_unpack_key(entries->vector[index].key);

        twpg_extend(&key, &other);
    }
    stored = twpg_pack_key(&key);
    *size = (int)VARSIZE(stored);
    PG_RETURN_POINTER(stored);
}

PG_FUNCTION_INFO_V1(twpg_land_compress);
Datum twpg_land_compress(PG_FUNCTION_ARGS) {
    GISTENTRY *entry = (GISTENTRY *)PG_GETARG_POINTER(0);
    GISTENTRY *compressed;
    twpg_key key;

    if (!entry->leafkey) {
        PG_RETURN_POINTER(entry);
    }
    key = twpg_key_of((const struct varlena *)PG_DETOAST_DATUM_PACKED(entry->key));
    compressed = palloc(sizeof *compressed);
    gistentryinit(*compressed, PointerGetDatum(twpg_pack_key(&key)), entry->rel, entry->page, entry->offset, false);
    PG_RETURN_POINTER(compressed);
}

PG_FUNCTION_INFO_V1(twpg_land_penalty);
Datum twpg_land_penalty(PG_FUNCTION_ARGS) {
    const GISTENTRY *entry = (const GISTENTRY *)PG_GETARG_POINTER(0);
    const GISTENTRY *added = (const GISTENTRY *)PG_GETARG_POINTER(1);
    float *penalty = (float *)PG_GETARG_POINTER(2);
    twpg_key key = twpg_unpack_key(entry->key);
    twpg_key other = twpg_unpack_key(added->key);

    *penalty = twpg_growth(&key, &other);
    PG_RETURN_POINTER(penalty);
}

PG_FUNCTION_INFO_V1(twpg_land_key_same);
Datum twpg_land_key_same(PG_FUNCTION_ARGS) {
    const bytea *first = PG_GETARG_BYTEA_PP(0);
    const bytea *second = PG_GETARG_BYTEA_PP(1);
    size_t length = VARSIZE_ANY_EXHDR(first);
    bool *same = (bool *)PG_GETARG_POINTER(2);

    *same = VARSIZE_ANY_EXHDR(second) == length && memcmp(VARDATA_ANY(first), VARDATA_ANY(second), length) == 0;
    PG_RETURN_POINTER(same);
}

static int compare_stored(Datum first, Datum second, SortSupport sort) {
    twpg_key one = twpg_unpack_key(first);
    twpg_key other = twpg_unpack_key(second);

    (void)sort;
    return twpg_compare_keys(&one, &other);
}

PG_FUNCTION_INFO_V1(twpg_land_key_sortsupport);
Datum twpg_land_key_sortsupport(PG_FUNCTION_ARGS) {
    SortSupport sort = (SortSupport)PG_GETARG_POINTER(0);

    sort->comparator = compare_stored;
    PG_RETURN_VOID();
}
