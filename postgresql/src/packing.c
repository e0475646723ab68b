/*
 * Packing lands for storage, and unpacking them. land.h says what the bytes are.
 */
#include "land.h"

#define MASK_BYTES 5
#define DESIGNATION_BYTES 4

/* Bits after those of the sections. */
#define EVERY_SECTION ((UINT64_C(1) << TOWNSHIP_SECTIONS) - 1)
#define OWN_LOTS (UINT64_C(1) << TOWNSHIP_SECTIONS)
#define DATED (OWN_LOTS << 1)

static int side_of(int level) {
    return 1 << level;
}

static size_t bytes_of_cells(int level) {
    return level == 0 ? 0 : (size_t)(side_of(level) * side_of(level) + 7) / 8;
}

/* How many places are along the side of a cell. */
static int places_of(int level) {
    return TOWNSHIP_PLACES_ACROSS >> level;
}

/* A row of places in which each cell is held if its bit is set. Bits above those of the cells don't count. */
static uint32_t spread(uint32_t cells, int level) {
    uint32_t cell = (uint32_t)((UINT64_C(1) << places_of(level)) - 1);
    uint32_t row = 0;
    int column;

    if (level == TWPG_LEVEL_MOST) {
        return cells;
    }
    for (column = 0; column < side_of(level); column++) {
        row |= (cells >> column & 1) << (column * places_of(level));
    }
    return row * cell;
}

/* The cells of a row of places, by the easternmost place of each. */
static uint32_t gathered(uint32_t row, int level) {
    uint32_t cells = 0;
    int column;

    if (level == TWPG_LEVEL_MOST) {
        return row;
    }
    for (column = 0; column < side_of(level); column++) {
        cells |= (row >> (column * places_of(level)) & 1) << column;
    }
    return cells;
}

static bool is_touched(const uint32_t *rows) {
    uint32_t any = 0;
    int row;

    for (row = 0; row < TOWNSHIP_PLACES_ACROSS; row++) {
        any |= rows[row];
    }
    return any != 0;
}

/* The lines on which the land of a section begins or ends: bit k stands for the line between the columns k and k + 1 if
   two places beside it differ, and for the line between the rows k and k + 1 if these differ. */
static uint32_t edges_of(const uint32_t *rows) {
    uint32_t edges = 0;
    int row;

    for (row = 0; row < TOWNSHIP_PLACES_ACROSS; row++) {
        edges |= rows[row] ^ rows[row] >> 1;
    }
    /* There is no column after the last one. */
    edges &= UINT32_MAX >> 1;
    for (row = 1; row < TOWNSHIP_PLACES_ACROSS; row++) {
        edges |= (uint32_t)(rows[row] != rows[row - 1]) << (row - 1);
    }
    return edges;
}

/* The least level at which each cell is held as a whole or not at all: no edge is inside a cell. */
static int level_of(const uint32_t *rows) {
    /* The lines between the cells of each level. */
    static const uint32_t between[] = {0, 0x00008000, 0x00808080, 0x08888888, 0x2AAAAAAA, 0x7FFFFFFF};
    uint32_t edges = edges_of(rows);
    int level = 0;

    while ((edges & ~between[level]) != 0) {
        level++;
    }
    return level;
}

/* Packs the cells of a section: so many bits for each row, from the lowest bit of the first byte. */
static void pack_cells(const uint32_t *rows, int level, uint8_t *bytes) {
    uint64_t bits = 0;
    int count = 0;
    int row;

    for (row = 0; row < TOWNSHIP_PLACES_ACROSS; row += places_of(level)) {
        bits |= (uint64_t)gathered(rows[row], level) << count;
        for (count += side_of(level); count >= 8; count -= 8) {
            *bytes++ = (uint8_t)bits;
            bits >>= 8;
        }
    }
    if (count > 0) {
        *bytes = (uint8_t)bits;
    }
}

/* Packs a section, and returns how many bytes it takes. */
static size_t pack_section(const uint32_t *rows, uint8_t *bytes) {
    int level = level_of(rows);

    bytes[0] = (uint8_t)level;
    if (level > 0) {
        pack_cells(rows, level, bytes + 1);
    }
    return 1 + bytes_of_cells(level);
}

static void pack_date(uint32_t date, uint8_t *bytes) {
    int index;

    for (index = 0; index < TWPG_DATE_BYTES; index++) {
        bytes[index] = (uint8_t)(date >> (8 * (TWPG_DATE_BYTES - 1 - index)));
    }
}

static uint32_t unpack_date(const uint8_t *bytes) {
    uint32_t date = 0;
    int index;

    for (index = 0; index < TWPG_DATE_BYTES; index++) {
        date = date << 8 | bytes[index];
    }
    return date;
}

/* Packs a land in at most TWPG_LAND_MOST bytes, and returns how many they are. */
size_t twpg_pack(const township_land *land, uint8_t *bytes) {
    uint64_t mask = (land->own_lots != 0 ? OWN_LOTS : 0) | (land->date != 0 ? DATED : 0);
    size_t length = TWPG_LAND_HEAD;
    int section;
    int index;

    memcpy(bytes, &land->township, DESIGNATION_BYTES);
    if (land->date != 0) {
        pack_date(land->date, bytes + length);
        length += TWPG_DATE_BYTES;
    }
    for (section = 0; section < TOWNSHIP_SECTIONS; section++) {
        if (is_touched(land->rows[section])) {
            mask |= UINT64_C(1) << section;
            length += pack_section(land->rows[section], bytes + length);
        }
    }
    for (index = 0; index < MASK_BYTES; index++) {
        bytes[DESIGNATION_BYTES + index] = (uint8_t)(mask >> (8 * index));
    }
    return length;
}

/* The bits of the sections and those after them. */
static uint64_t mask_of(twpg_packed packed) {
    uint64_t mask = 0;
    int index;

    for (index = 0; index < MASK_BYTES; index++) {
        mask |= (uint64_t)packed.start[DESIGNATION_BYTES + index] << (8 * index);
    }
    return mask;
}

uint64_t twpg_sections_of(twpg_packed packed) {
    return mask_of(packed) & EVERY_SECTION;
}

static size_t head_of(uint64_t mask) {
    return TWPG_LAND_HEAD + ((mask & DATED) != 0 ? TWPG_DATE_BYTES : 0);
}

/* Whether there are all bytes that come before those of the sections. */
bool twpg_has_head(twpg_packed packed) {
    return packed.length >= TWPG_LAND_HEAD && packed.length >= head_of(mask_of(packed));
}

/* The plat that a land is on, whose bytes have a head. */
twpg_site twpg_site_of_packed(twpg_packed packed) {
    uint64_t mask = mask_of(packed);
    twpg_site site;

    memcpy(&site.township, packed.start, DESIGNATION_BYTES);
    site.date = (mask & DATED) != 0 ? unpack_date(packed.start + TWPG_LAND_HEAD) : 0;
    site.own_lots = (mask & OWN_LOTS) != 0;
    return site;
}

/* The cells of a row, so many from a bit on: they begin a byte, or all of them are in one byte, and other bits may be
   above them. */
static uint32_t bits_at(const uint8_t *cells, size_t first, int count) {
    uint32_t bits = 0;
    int byte;

    for (byte = 0; byte * 8 < count; byte++) {
        bits |= (uint32_t)cells[first / 8 + (size_t)byte] << (8 * byte);
    }
    return bits >> first % 8;
}

static void unpack_cells(const uint8_t *cells, int level, uint32_t *rows) {
    int side = side_of(level);
    int row;

    for (row = 0; row < TOWNSHIP_PLACES_ACROSS; row++) {
        size_t first = (size_t)(row / places_of(level) * side);

        rows[row] = row % places_of(level) > 0 ? rows[row - 1]
                                               : spread(level == 0 ? 1 : bits_at(cells, first, side), level);
    }
}

/* Unpacks the section that begins at a byte, and returns where the next one begins; or 0 if there is no
   section. */
static size_t unpack_section(twpg_packed packed, size_t at, uint32_t *rows) {
    int level;

    if (at >= packed.length || packed.start[at] > TWPG_LEVEL_MOST) {
        return 0;
    }
    level = packed.start[at];
    if (packed.length - at - 1 < bytes_of_cells(level)) {
        return 0;
    }
    unpack_cells(packed.start + at + 1, level, rows);
    return at + 1 + bytes_of_cells(level);
}

/* Whether the bits after those of the sections, and the date that they announce, are as twpg_pack writes them. */
static bool is_site_packed(uint64_t mask, const twpg_site *site) {
    return (mask & ~(EVERY_SECTION | OWN_LOTS | DATED)) == 0 && ((mask & DATED) == 0) == (site->date == 0);
}

/* Unpacks a land. Returns whether these bytes have the form of one; whether it is a valid one, the library
   says. */
bool twpg_unpack(twpg_packed packed, township_land *land) {
    twpg_site site;
    uint64_t sections;
    size_t at;
    int section;

    if (!twpg_has_head(packed)) {
        return false;
    }
    site = twpg_site_of_packed(packed);
    if (!is_site_packed(mask_of(packed), &site)) {
        return false;
    }
    at = head_of(mask_of(packed));
    sections = twpg_sections_of(packed);
    memset(land, 0, sizeof *land);
    land->township = site.township;
    land->date = site.date;
    land->own_lots = site.own_lots;
    for (section = 0; section < TOWNSHIP_SECTIONS && at > 0; section++) {
        if (sections >> section & 1) {
            at = unpack_section(packed, at, land->rows[section]);
        }
    }
    return at == packed.length;
}
