/*
 * How a full page of the GiST index on lands is split: between two townships if there are several, or else between two
 * plats or two sections, as near the middle as possible.
 */
#include "land_key.h"

#include "access/gist.h"

/* An entry of the page, for sorting. */
typedef struct twpg_entry {
    twpg_key key;
    OffsetNumber offset;
} twpg_entry;

static int compare_entries(const void *first, const void *second) {
    const twpg_entry *one = first;
    const twpg_entry *other = second;
    int order = twpg_compare_keys(&one->key, &other->key);

    return order != 0 ? order : (int)one->offset - (int)other->offset;
}

static bool in_other_township(const twpg_key *first, const twpg_key *second) {
    return memcmp(&first->least, &second->least, sizeof first->least) != 0 ||
           memcmp(&first->most, &second->most, sizeof first->most) != 0;
}

static bool on_other_plat(const twpg_key *first, const twpg_key *second) {
    return !twpg_keys_on_one_plat(first, second);
}

static int first_section(const twpg_key *key) {
    int section = 0;

    while (section < TOWNSHIP_SECTIONS && key->cells[section] == 0) {
        section++;
    }
    return section;
}

static bool in_other_section(const twpg_key *first, const twpg_key *second) {
    return first_section(first) != first_section(second);
}

/* The place nearest the middle, but not too near an end, between two entries that differ so; or 0 if there is
   none. */
static int cut_between(const twpg_entry *entries, int count, bool (*differ)(const twpg_key *, const twpg_key *)) {
    int middle = count / 2;
    int distance;

    for (distance = 0; distance <= count / 4; distance++) {
        int before = middle - distance;
        int after = middle + distance;

        if (before > 0 && differ(&entries[before - 1].key, &entries[before].key)) {
            return before;
        }
        if (after < count && differ(&entries[after - 1].key, &entries[after].key)) {
            return after;
        }
    }
    return 0;
}

static int cut_of(const twpg_entry *entries, int count) {
    int cut = cut_between(entries, count, in_other_township);

    if (cut == 0) {
        cut = cut_between(entries, count, on_other_plat);
    }
    if (cut == 0) {
        cut = cut_between(entries, count, in_other_section);
    }
    return cut == 0 ? count / 2 : cut;
}

/* The key of some entries, and their offsets. */
static Datum gathered(const twpg_entry *entries, int count, OffsetNumber *offsets) {
    twpg_key key = entries[0].key;
    int index;

    for (index = 0; index < count; index++) {
        twpg_extend(&key, &entries[index].key);
        offsets[index] = entries[index].offset;
    }
    return PointerGetDatum(twpg_pack_key(&key));
}

PG_FUNCTION_INFO_V1(twpg_land_picksplit);
Datum twpg_land_picksplit(PG_FUNCTION_ARGS) {
    const GistEntryVector *page = (const GistEntryVector *)PG_GETARG_POINTER(0);
    GIST_SPLITVEC *split = (GIST_SPLITVEC *)PG_GETARG_POINTER(1);
    int count = page->n - FirstOffsetNumber;
    twpg_entry *entries = palloc((size_t)count * sizeof *entries);
    int index;
    int cut;

    for (index = 0; index < count; index++) {
        entries[index].offset = (OffsetNumber)(index + FirstOffsetNumber);
        entries[index].key = twpg_unpack_key(page->vector[entries[index].offset].key);
    }
    qsort(entries, (size_t)count, sizeof *entries, compare_entries);
    cut = cut_of(entries, count);
    split->spl_left = palloc((size_t)count * sizeof *split->spl_left);
    split->spl_right = palloc((size_t)count * sizeof *split->spl_right);
    split->spl_nleft = cut;
    split->spl_nright = count - cut;
    split->spl_ldatum = gathered(entries, cut, split->spl_left);
    split->spl_rdatum = gathered(entries + cut, count - cut, split->spl_right);
    PG_RETURN_POINTER(split);
}
