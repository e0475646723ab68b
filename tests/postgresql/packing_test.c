/*
 * Tests how lands are packed for storage: what is packed is unpacked again, in as few bytes as
 * postgresql/src/land.h says, and bytes that may be anything are unpacked or refused without a look at any
 * byte beyond them. Each input is in memory of just its size, so that the sanitizer, or memcheck, sees such a
 * look. The last line is `N passed, M failed`.
 */
#include "../../postgresql/src/land.h"

#define SEED 46
#include "packing_test.h"

enum { ROUNDS = 20000 };

/* Sets random cells of a level in a section. */
static void fill(uint32_t *rows, int level) {
    int side = 32 >> level;
    int row;

    for (row = 0; row < 32; row++) {
        int column;

        for (column = 0; row % side == 0 && column < 32; column++) {
            uint32_t bit = column % side == 0 ? chance(2) : rows[row] >> (column - 1) & 1;

            rows[row] |= bit << column;
        }
        rows[row] = rows[row - row % side];
    }
}

static township_land random_land(void) {
    township_land land;
    int sections = (int)chance(5);

    memset(&land, 0, sizeof land);
    land.township.number = (uint8_t)(1 + chance(99));
    land.township.range = (uint8_t)(1 + chance(99));
    land.township.north_south = (uint8_t)chance(2);
    land.township.east_west = (uint8_t)chance(2);
    land.date = chance(2) == 0 ? 0 : 1 + chance(99991231);
    land.own_lots = chance(2);
    while (sections-- > 0) {
        fill(land.rows[chance(36)], (int)chance(6));
    }
    return land;
}

/* Unpacks bytes in memory of their own size. */
static bool unpack(const uint8_t *bytes, size_t length, township_land *land) {
    uint8_t *exact = malloc(length == 0 ? 1 : length);
    twpg_packed packed = {exact, length};
    bool unpacked;

    memcpy(exact, bytes, length);
    unpacked = twpg_unpack(packed, land);
    free(exact);
    return unpacked;
}

static size_t packed_length(const township_land *land) {
    uint8_t bytes[TWPG_LAND_MOST];

    return twpg_pack(land, bytes);
}

/* Land on the plat of a lot table takes four bytes more if that has a date, and none for its own lots. */
static void test_plats(void) {
    static const uint8_t wanted[] = {2, 0, 3, 1, 0, 0, 0, 0, 1 << 5 | 1 << 4, 0x01, 0x23, 0xC0, 0xB0};
    uint8_t bytes[TWPG_LAND_MOST];
    township_land land;

    memset(&land, 0, sizeof land);
    land.own_lots = 1;
    check(packed_length(&land) == 9, "empty land of a plat with its lots");
    land.date = 19120304;
    check(packed_length(&land) == 9 + 4, "empty land of a plat with a date");
    land.township.number = 2;
    land.township.range = 3;
    land.township.east_west = TOWNSHIP_WEST;
    check(twpg_pack(&land, bytes) == sizeof wanted && memcmp(bytes, wanted, sizeof wanted) == 0, "the bytes of a plat");
    /* 19120304 is 0x0123C0B0. A date that is 0, and the two bits above, are in no packed land. */
    memset(bytes + 9, 0, 4);
    check(!unpack(bytes, sizeof wanted, &land), "a date that is 0");
    memcpy(bytes, wanted, sizeof wanted);
    bytes[8] |= 1 << 6;
    check(!unpack(bytes, sizeof wanted, &land), "a bit after that of the date");
    memcpy(bytes, wanted, sizeof wanted);
    check(!unpack(bytes, 12, &land) && !unpack(bytes, 9, &land), "part of a date");
}

static void test_lengths(void) {
    township_land land;
    int row;

    memset(&land, 0, sizeof land);
    /* The designation and the sections alone. */
    check(packed_length(&land) == 9, "empty land");
    /* The smallest place of section 36: its level, and 32 times 32 bits. */
    land.rows[35][31] = 1;
    check(packed_length(&land) == 9 + 1 + 128, "a place");
    /* A quarter-quarter, 8 by 8 places in the southeast corner: 16 bits. */
    land.rows[35][31] = 0;
    for (row = 0; row < 8; row++) {
        land.rows[35][row] = 0xFF;
    }
    check(packed_length(&land) == 9 + 1 + 2, "a quarter-quarter");
    /* A quarter: 4 bits. */
    for (row = 0; row < 16; row++) {
        land.rows[35][row] = 0xFFFF;
    }
    check(packed_length(&land) == 9 + 1 + 1, "a quarter");
    memset(land.rows, 0xFF, sizeof land.rows);
    check(packed_length(&land) == 9 + 36, "the whole township");
}

/* Fills rows of section 14 with a row of places, from one row to before another. */
static township_land rows_of(int from, int to, uint32_t places) {
    township_land land;
    int row;

    memset(&land, 0, sizeof land);
    for (row = from; row < to; row++) {
        land.rows[13][row] = places;
    }
    return land;
}

/* The bytes of a section by its level: 1, 1 + 1, 1 + 2, 1 + 8, 1 + 32, and 1 + 128. */
static void test_levels(void) {
    static const struct {
        int from;
        int to;
        uint32_t places;
        size_t length;
        const char *what;
    } rows[] = {
        {0, 32, 0xFFFFFFFF, 1, "a section"},
        {16, 32, 0xFFFFFFFF, 2, "its north half"},
        {0, 32, 0xFFFF0000, 2, "its west half"},
        {8, 16, 0xFFFFFFFF, 3, "a row of quarter-quarters"},
        {0, 32, 0x0000FF00, 3, "a column of quarter-quarters"},
        {28, 32, 0xFFFFFFFF, 9, "the north row of 10 acres"},
        {0, 32, 0xF0000000, 9, "the west column of 10 acres"},
        {2, 4, 0xFFFFFFFF, 33, "a row of 2.5 acres"},
        {0, 32, 0xC0000000, 33, "the west column of 2.5 acres"},
        {30, 31, 0xFFFFFFFF, 129, "a row of places"},
        {0, 32, 0x80000000, 129, "the west column of places"},
        {0, 32, 0x7FFFFFFF, 129, "all but the west column of places"},
        {0, 31, 0xFFFFFFFF, 129, "all but the north row of places"},
        {1, 32, 0xFFFFFFFF, 129, "all but the south row of places"},
        {0, 32, 0xAAAAAAAA, 129, "every second column of places"},
    };
    int index;

    for (index = 0; index < (int)lengthof(rows); index++) {
        township_land land = rows_of(rows[index].from, rows[index].to, rows[index].places);

        check(packed_length(&land) == TWPG_LAND_HEAD + rows[index].length, rows[index].what);
    }
}

/* The bytes of a quarter-quarter section, the SW1/4NW1/4 of section 14: its row is the third from the south, and its
   column the fourth from the east, so its bit is 2 * 4 + 3. */
static void test_bytes(void) {
    static const uint8_t wanted[] = {2, 0, 3, 1, 0, 1 << 5, 0, 0, 0, 2, 0, 1 << 3};
    township_land land = rows_of(16, 24, 0xFF000000);
    uint8_t bytes[TWPG_LAND_MOST];

    land.township.number = 2;
    land.township.range = 3;
    land.township.east_west = TOWNSHIP_WEST;
    check(twpg_pack(&land, bytes) == sizeof wanted && memcmp(bytes, wanted, sizeof wanted) == 0, "its bytes");
}

/* Whether each square of so many places along a side is held as a whole or not at all. */
static bool is_in_squares(const uint32_t *rows, int side) {
    int row;
    int column;

    for (row = 0; row < 32; row++) {
        for (column = 0; column < 32; column++) {
            if ((rows[row] >> column & 1) != (rows[row - row % side] >> (column - column % side) & 1)) {
                return false;
            }
        }
    }
    return true;
}

/* A random section takes the bytes of the largest squares that it is made of. */
static void test_least_level(void) {
    static const size_t lengths[] = {1, 2, 3, 9, 33, 129};
    township_land land;
    int level;

    memset(&land, 0, sizeof land);
    fill(land.rows[7], (int)chance(6));
    land.rows[7][chance(32)] ^= chance(3) == 0 ? UINT32_C(1) << chance(32) : 0;
    for (level = 0; !is_in_squares(land.rows[7], 32 >> level);) {
        level++;
    }
    /* A section whose largest square is all of it has none of it, or all. */
    check(packed_length(&land) == 9 + (level == 0 && land.rows[7][0] == 0 ? 0 : lengths[level]), "the least level");
}

static void test_round(void) {
    uint8_t bytes[TWPG_LAND_MOST];
    uint8_t again[TWPG_LAND_MOST];
    township_land land = random_land();
    township_land unpacked;
    size_t length = twpg_pack(&land, bytes);
    size_t at;

    check(length <= TWPG_LAND_MOST, "no more bytes than the most");
    check(unpack(bytes, length, &unpacked) && memcmp(&land, &unpacked, sizeof land) == 0, "unpacked again");
    check(!unpack(bytes, length - 1, &unpacked), "a byte is missing");
    check(!unpack(bytes, chance((uint32_t)length), &unpacked), "bytes are missing");
    for (at = 0; at < 3; at++) {
        bytes[chance((uint32_t)length)] ^= (uint8_t)(1 << chance(8));
    }
    /* What is still a land has one packed form, from which it is unpacked again. */
    if (unpack(bytes, length, &land)) {
        length = twpg_pack(&land, again);
        check(unpack(again, length, &unpacked) && memcmp(&land, &unpacked, sizeof land) == 0, "packed anew");
    }
}

static void test_random_bytes(void) {
    uint8_t bytes[TWPG_LAND_MOST];
    township_land land;
    size_t length = chance(chance(2) == 0 ? 40 : TWPG_LAND_MOST + 1);
    size_t at;

    for (at = 0; at < length; at++) {
        bytes[at] = (uint8_t)(at >= 9 && chance(3) == 0 ? chance(7) : chance(256));
    }
    if (length > 8) {
        bytes[8] &= chance(4) == 0 ? 0xFF : chance(2) == 0 ? 0x0F : 0x3F;
    }
    /* What is unpacked from other bytes is packed in the form that there is one of. */
    if (unpack(bytes, length, &land)) {
        check(packed_length(&land) <= length, "no longer than it was");
    }
}

int main(void) {
    int round;

    test_lengths();
    test_plats();
    test_levels();
    test_bytes();
    for (round = 0; round < ROUNDS; round++) {
        test_least_level();
        test_round();
        test_random_bytes();
    }
    return checked();
}
