/*
 * Keys of the GiST index on lands: how they are made, packed, compared, and extended.
 */
#include "land_key.h"

#include "port/pg_bitutils.h"

#define BOX_BYTES 4
#define MASK_BYTES 5
#define EMPTY_BIT (UINT64_C(1) << TOWNSHIP_SECTIONS)
#define OWN_LOTS_BIT (EMPTY_BIT << 1)
#define DATED_BIT (EMPTY_BIT << 2)
#define SEVERAL_BIT (EMPTY_BIT << 3)
#define EVERY_SECTION (EMPTY_BIT - 1)
#define PLACES_IN_CELL 8
#define CELLS_ACROSS 4
#define EVERY_CELL 0xFFFF
#define KEY_MOST (BOX_BYTES + MASK_BYTES + TWPG_DATE_BYTES + 2 * TOWNSHIP_SECTIONS)

static twpg_position position_of(const township_designation *township) {
    int tier = township->north_south == TOWNSHIP_NORTH ? township->number - 1 : -township->number;
    int range = township->east_west == TOWNSHIP_EAST ? township->range - 1 : -township->range;
    twpg_position position = {(int8_t)tier, (int8_t)range};

    return position;
}

/* The quarter-quarters of a section that are touched. */
static uint16_t cells_of(const uint32_t *rows) {
    uint32_t cells = 0;
    int row;
    int column;

    for (row = 0; row < TOWNSHIP_PLACES_ACROSS; row++) {
        for (column = 0; column < CELLS_ACROSS; column++) {
            if ((rows[row] >> (PLACES_IN_CELL * column) & 0xFF) != 0) {
                cells |= 1u << (row / PLACES_IN_CELL * CELLS_ACROSS + column);
            }
        }
    }
    return (uint16_t)cells;
}

/* Takes the first section of a set, which is not empty. */
static int take_section(uint64_t *sections) {
    int section = pg_rightmost_one_pos64(*sections);

    *sections &= *sections - 1;
    return section;
}

twpg_key twpg_key_of(const struct varlena *stored) {
    uint64_t sections = twpg_sections_of(twpg_packed_of(stored));
    township_land land;
    twpg_key key;

    twpg_land_of(stored, &land);
    memset(&key, 0, sizeof key);
    key.least = position_of(&land.township);
    key.most = key.least;
    key.has_empty = sections == 0;
    key.date = land.date;
    key.own_lots = land.own_lots;
    key.sections = sections;
    while (sections != 0) {
        int section = take_section(&sections);

        key.cells[section] = cells_of(land.rows[section]);
    }
    return key;
}

bool twpg_is_single(const twpg_key *key) {
    return key->least.tier == key->most.tier && key->least.range == key->most.range;
}

/* Whether all lands under two keys of one township are on one plat of it. */
bool twpg_keys_on_one_plat(const twpg_key *first, const twpg_key *second) {
    return !first->has_several_plats && !second->has_several_plats && first->date == second->date &&
           first->own_lots == second->own_lots;
}

static uint64_t mask_of(const twpg_key *key) {
    return key->sections | (key->has_empty ? EMPTY_BIT : 0) | (key->own_lots != 0 ? OWN_LOTS_BIT : 0) |
           (key->date != 0 ? DATED_BIT : 0) | (key->has_several_plats ? SEVERAL_BIT : 0);
}

/* Writes the lowest bytes of a number, from the lowest one. */
static size_t put_bytes(uint8_t *bytes, uint64_t number, int count) {
    int index;

    for (index = 0; index < count; index++) {
        bytes[index] = (uint8_t)(number >> (8 * index) & 0xFF);
    }
    return (size_t)count;
}

static uint64_t get_bytes(const uint8_t *bytes, int count) {
    uint64_t number = 0;
    int index;

    for (index = 0; index < count; index++) {
        number |= (uint64_t)bytes[index] << (8 * index);
    }
    return number;
}

bytea *twpg_pack_key(const twpg_key *key) {
    bytea *stored = palloc0(VARHDRSZ + KEY_MOST);
    uint8_t *bytes = (uint8_t *)VARDATA(stored);
    size_t length = BOX_BYTES;
    uint64_t sections = key->sections;

    memcpy(bytes, &key->least, sizeof key->least);
    memcpy(bytes + sizeof key->least, &key->most, sizeof key->most);
    if (twpg_is_single(key)) {
        length += put_bytes(bytes + length, mask_of(key), MASK_BYTES);
        length += put_bytes(bytes + length, key->date, key->date != 0 ? TWPG_DATE_BYTES : 0);
        while (sections != 0) {
            length += put_bytes(bytes + length, key->cells[take_section(&sections)], 2);
        }
    }
    SET_VARSIZE(stored, VARHDRSZ + length);
    return stored;
}

static void put_several_plats(twpg_key *key) {
    key->has_several_plats = true;
    key->date = 0;
    key->own_lots = 0;
}

/* Nothing is known of the sections and plats of several townships: any may be touched. */
static void touch_all(twpg_key *key) {
    key->sections = EVERY_SECTION;
    memset(key->cells, EVERY_CELL & 0xFF, sizeof key->cells);
    key->has_empty = true;
    put_several_plats(key);
}

_Noreturn static void refuse_key(void) {
    ereport(ERROR, (errcode(ERRCODE_INDEX_CORRUPTED), errmsg("a key of an index on land is not valid")));
}

static void unpack_cells(const uint8_t *bytes, size_t length, twpg_key *key) {
    uint64_t mask = get_bytes(bytes, MASK_BYTES);
    int date_bytes = (mask & DATED_BIT) != 0 ? TWPG_DATE_BYTES : 0;
    size_t at = MASK_BYTES + (size_t)date_bytes;
    uint64_t sections;

    key->has_empty = (mask & EMPTY_BIT) != 0;
    key->has_several_plats = (mask & SEVERAL_BIT) != 0;
    key->own_lots = (mask & OWN_LOTS_BIT) != 0;
    key->sections = mask & EVERY_SECTION;
    if (length != at + 2 * (size_t)pg_popcount64(key->sections)) {
        refuse_key();
    }
    key->date = (uint32_t)get_bytes(bytes + MASK_BYTES, date_bytes);
    for (sections = key->sections; sections != 0; at += 2) {
        key->cells[take_section(&sections)] = (uint16_t)get_bytes(bytes + at, 2);
    }
}

twpg_key twpg_unpack_key(Datum stored) {
    bytea *packed = PG_DETOAST_DATUM_PACKED(stored);
    const uint8_t *bytes = (const uint8_t *)VARDATA_ANY(packed);
    size_t length = VARSIZE_ANY_EXHDR(packed);
    twpg_key key;

    memset(&key, 0, sizeof key);
    if (length < BOX_BYTES || (length > BOX_BYTES && length < BOX_BYTES + MASK_BYTES)) {
        refuse_key();
    }
    memcpy(&key.least, bytes, sizeof key.least);
    memcpy(&key.most, bytes + sizeof key.least, sizeof key.most);
    if (length == BOX_BYTES) {
        touch_all(&key);
    } else {
        unpack_cells(bytes + BOX_BYTES, length - BOX_BYTES, &key);
    }
    if ((Pointer)packed != DatumGetPointer(stored)) {
        pfree(packed);
    }
    return key;
}

/* Whether a township is in the box of a packed key. Most keys on a page can be passed over for that. */
bool twpg_is_covered(Datum stored, twpg_position position) {
    bytea *packed = PG_DETOAST_DATUM_PACKED(stored);
    const int8_t *box = (const int8_t *)VARDATA_ANY(packed);

    if (VARSIZE_ANY_EXHDR(packed) < BOX_BYTES) {
        refuse_key();
    }
    return box[0] <= position.tier && box[1] <= position.range && position.tier <= box[2] && position.range <= box[3];
}

/* Whether two keys touch the same quarter-quarter of some section. */
bool twpg_keys_share(const twpg_key *first, const twpg_key *second) {
    uint64_t sections = first->sections & second->sections;

    while (sections != 0) {
        int section = take_section(&sections);

        if ((first->cells[section] & second->cells[section]) != 0) {
            return true;
        }
    }
    return false;
}

/* Whether one key touches all quarter-quarters that the other one touches. */
bool twpg_keys_nested(const twpg_key *outer, const twpg_key *inner) {
    uint64_t sections = inner->sections;

    if ((sections & ~outer->sections) != 0) {
        return false;
    }
    while (sections != 0) {
        int section = take_section(&sections);

        if ((inner->cells[section] & ~outer->cells[section]) != 0) {
            return false;
        }
    }
    return true;
}

void twpg_extend(twpg_key *key, const twpg_key *other) {
    bool on_one_plat = twpg_keys_on_one_plat(key, other);
    int section;

    key->least.tier = Min(key->least.tier, other->least.tier);
    key->least.range = Min(key->least.range, other->least.range);
    key->most.tier = Max(key->most.tier, other->most.tier);
    key->most.range = Max(key->most.range, other->most.range);
    if (!twpg_is_single(key)) {
        touch_all(key);
        return;
    }
    if (!on_one_plat) {
        put_several_plats(key);
    }
    key->has_empty = key->has_empty || other->has_empty;
    key->sections |= other->sections;
    for (section = 0; section < TOWNSHIP_SECTIONS; section++) {
        key->cells[section] |= other->cells[section];
    }
}

static int edge_of(const twpg_key *key) {
    return (key->most.tier - key->least.tier) + (key->most.range - key->least.range);
}

static int added_cells(const twpg_key *key, const twpg_key *added) {
    int count = 0;
    int section;

    for (section = 0; section < TOWNSHIP_SECTIONS; section++) {
        count += pg_popcount32(added->cells[section] & (uint32_t)~key->cells[section]);
    }
    return count;
}

/* How much worse a key gets by what is added to it. Townships count first, so that each page comes to contain
   few of them; in one township, whether there is more than one plat; and on one plat, the quarter-quarters that are
   touched in addition. */
float twpg_growth(const twpg_key *key, const twpg_key *added) {
    twpg_key both = *key;
    int growth;

    twpg_extend(&both, added);
    growth = edge_of(&both) - edge_of(key);
    if (growth > 0) {
        return (float)(1000 * growth + (twpg_is_single(key) ? 500 : 0));
    }
    if (twpg_is_single(key)) {
        bool is_mixed = both.has_several_plats && !key->has_several_plats;

        return (is_mixed ? 500 : 0) + (float)added_cells(key, added) / (16 * TOWNSHIP_SECTIONS + 1);
    }
    return 1 + (float)edge_of(key) / 1000;
}

/* The bits of a number, with a bit of another one after each. */
static uint32_t interleaved(uint8_t first, uint8_t second) {
    uint32_t bits = 0;
    int index;

    for (index = 0; index < 8; index++) {
        bits |= (uint32_t)(first >> index & 1) << (2 * index + 1) | (uint32_t)(second >> index & 1) << (2 * index);
    }
    return bits;
}

/* Where the middle of a box comes in an order of townships in which neighbors are near each other. */
static uint32_t rank_of(const twpg_key *key) {
    int tier = (key->least.tier + key->most.tier) / 2;
    int range = (key->least.range + key->most.range) / 2;

    return interleaved((uint8_t)(tier + 128), (uint8_t)(range + 128));
}

/* The plat of a key as one number, in the order of their dates. */
static uint64_t plat_of(const twpg_key *key) {
    return (uint64_t)key->has_several_plats << 33 | (uint64_t)key->date << 1 | key->own_lots;
}

/* The order of keys for sorting them into pages: by townships, in a township by plats, and on a plat by the first
   sections and quarter-quarters that they touch. */
int twpg_compare_keys(const twpg_key *first, const twpg_key *second) {
    uint32_t one = rank_of(first);
    uint32_t other = rank_of(second);
    int section;

    if (one != other) {
        return one < other ? -1 : 1;
    }
    if (plat_of(first) != plat_of(second)) {
        return plat_of(first) < plat_of(second) ? -1 : 1;
    }
    for (section = 0; section < TOWNSHIP_SECTIONS; section++) {
        uint16_t here = first->cells[section];
        uint16_t there = second->cells[section];

        if (here != there) {
            uint16_t differ = here ^ there;

            return (here & differ & (uint16_t)-differ) != 0 ? -1 : 1;
        }
    }
    return 0;
}
