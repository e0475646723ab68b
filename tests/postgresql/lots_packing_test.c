/*
 * Tests how lot tables are packed for storage: what is packed is unpacked again, in as few bytes as
 * postgresql/src/lots.h says, and bytes that may be anything are unpacked or refused without a look at any byte beyond
 * them. Each input is in memory of just its size, so that the sanitizer, or memcheck, sees such a look. The last line
 * is `N passed, M failed`.
 */
#include "../../postgresql/src/lots.h"

#define SEED 47
#include "packing_test.h"

enum { ROUNDS = 20000, PLACES = 64, QUARTER_QUARTERS = 16 };

/* What the library says of a regular township: section 5 has lots 1 to 4, and section 6 has lots 1 to 7. For this test,
   the others have none. */
township_answer township_lots_read(const uint8_t *table, size_t table_length, township_lots *lots) {
    static const uint8_t numbers[] = {1, 2, 3, 4, 1, 2, 3, 4, 5, 6, 7};
    township_answer answer = {0};
    int section;

    (void)table;
    (void)table_length;
    memset(lots, 0, sizeof *lots);
    memcpy(lots->numbers, numbers, sizeof numbers);
    for (section = 5; section < TOWNSHIP_BOUNDS; section++) {
        lots->first[section] = section == 5 ? 4 : 11;
    }
    return answer;
}

/* No other call of the library is made, and none fails. */
void twpg_fail(uint32_t verdict) {
    (void)verdict;
    abort();
}

static void set_head(township_lots *lots) {
    lots->township.number = (uint8_t)(1 + chance(99));
    lots->township.range = (uint8_t)(1 + chance(99));
    lots->township.north_south = (uint8_t)chance(2);
    lots->township.east_west = (uint8_t)chance(2);
    lots->date = chance(2) == 0 ? 0 : 1 + chance(99991231);
}

static township_lots random_standard(void) {
    township_lots lots;
    int index;

    township_lots_read(NULL, 0, &lots);
    set_head(&lots);
    for (index = 0; index < 11; index++) {
        lots.figures[index] = chance(2) == 0 ? 0 : 1 + chance(99999);
    }
    return lots;
}

/* A table that says where its lots lie, in some sections, with some quarter-quarters that are divided. */
static township_lots random_table(void) {
    township_lots lots;
    int count = 0, divided = 0, section, index, place;

    memset(&lots, 0, sizeof lots);
    set_head(&lots);
    lots.mapped = 1;
    for (section = 0; section < TOWNSHIP_SECTIONS; section++) {
        int lot;

        for (lot = 1; chance(3) == 0 && lot < 99 && count < TOWNSHIP_RETURNED_MOST; lot += 1 + (int)chance(9)) {
            lots.numbers[count] = (uint8_t)lot;
            lots.figures[count++] = 1 + chance(99999);
        }
        lots.first[section + 1] = (uint16_t)count;
        for (index = 0; chance(2) == 0 && index < QUARTER_QUARTERS; index++) {
            uint8_t *position = &lots.positions[QUARTER_QUARTERS * section + index];

            *position = (uint8_t)chance(101);
            if (chance(9) == 0 && divided < 128) {
                *position = (uint8_t)(101 + divided);
                for (place = 0; place < PLACES; place++) {
                    lots.divided[PLACES * divided + place] = (uint8_t)chance(101);
                }
                divided++;
            }
        }
    }
    return lots;
}

/* Unpacks bytes in memory of their own size. */
static bool unpack(const uint8_t *bytes, size_t length, township_lots *lots) {
    uint8_t *exact = malloc(length == 0 ? 1 : length);
    twpg_bytes packed = {exact, length};
    bool unpacked;

    memcpy(exact, bytes, length);
    unpacked = twpg_unpack_lots(packed, lots);
    free(exact);
    return unpacked;
}

/* The bytes of lots.h, without the parts that are not there. */
static size_t length_of(const township_lots *lots) {
    size_t length = TWPG_LOTS_HEAD + (lots->mapped != 0 ? 5 : 0) + PLACES * twpg_divided_in(lots);
    int index;

    for (index = 0; index < TOWNSHIP_RETURNED_MOST; index++) {
        length += lots->figures[index] != 0 ? TWPG_LOT_BYTES : 0;
    }
    for (index = 0; lots->mapped != 0 && index < TOWNSHIP_SECTIONS; index++) {
        static const uint8_t none[QUARTER_QUARTERS];

        length += memcmp(lots->positions + QUARTER_QUARTERS * index, none, sizeof none) != 0 ? QUARTER_QUARTERS : 0;
    }
    return length;
}

/* Bytes of which one is another, or which are cut off, are refused, or are those of what they are unpacked as, unless
   they have parts in another order. */
static void test_damaged(uint8_t *bytes, size_t length) {
    township_lots lots;
    uint8_t *again = malloc(TWPG_LOTS_MOST);

    check(!unpack(bytes, chance((uint32_t)length), &lots), "bytes that are cut off");
    bytes[chance((uint32_t)length)] = (uint8_t)chance(256);
    if (unpack(bytes, length, &lots)) {
        check(twpg_pack_lots(&lots, again) <= TWPG_LOTS_MOST, "damaged bytes are packed again");
    }
    free(again);
}

static void test_round(township_lots lots) {
    uint8_t *bytes = malloc(TWPG_LOTS_MOST);
    size_t length = twpg_pack_lots(&lots, bytes);
    township_lots again;

    check(length == length_of(&lots), "the length");
    check(unpack(bytes, length, &again) && memcmp(&lots, &again, sizeof lots) == 0, "a table is unpacked again");
    test_damaged(bytes, length);
    free(bytes);
}

/* T. 2 N., R. 3 W., of March 4, 1912, with 40.45 acres of lot 1 of section 5: 19120304 is 0x0123C0B0, and 4045 is
   0x000FCD. */
static void test_bytes(void) {
    static const uint8_t wanted[] = {2, 0, 3, 1, 0x01, 0x23, 0xC0, 0xB0, 0, 0, 1, 5, 1, 0x00, 0x0F, 0xCD};
    uint8_t bytes[TWPG_LOTS_MOST];
    township_lots lots;

    township_lots_read(NULL, 0, &lots);
    lots.township = (township_designation){2, TOWNSHIP_NORTH, 3, TOWNSHIP_WEST};
    lots.date = 19120304;
    lots.figures[0] = 4045;
    check(twpg_pack_lots(&lots, bytes) == sizeof wanted && memcmp(bytes, wanted, sizeof wanted) == 0, "the bytes");
    /* Lot 5 of section 5 is no standard lot, and 2 says nothing of where lots lie. */
    bytes[12] = 5;
    check(!unpack(bytes, sizeof wanted, &lots), "a lot that is not there");
    memcpy(bytes, wanted, sizeof wanted);
    bytes[8] = 2;
    check(!unpack(bytes, sizeof wanted, &lots), "another kind of lots");
}

/* All lots and divided quarter-quarters that a table can have. */
static void test_largest(void) {
    township_lots lots;
    int index;

    memset(&lots, 0, sizeof lots);
    lots.mapped = 1;
    for (index = 0; index < TOWNSHIP_RETURNED_MOST; index++) {
        lots.numbers[index] = (uint8_t)(1 + index % 32);
        lots.figures[index] = 99999;
    }
    for (index = 0; index < TOWNSHIP_BOUNDS; index++) {
        lots.first[index] = (uint16_t)Min(32 * index, TOWNSHIP_RETURNED_MOST);
    }
    for (index = 0; index < TOWNSHIP_POSITION_BYTES; index++) {
        lots.positions[index] = (uint8_t)(index < 128 ? 101 + index : 100);
    }
    memset(lots.divided, 100, sizeof lots.divided);
    test_round(lots);
}

static void test_anything(void) {
    uint8_t bytes[600];
    township_lots lots;
    size_t length = chance(sizeof bytes);
    size_t index;

    for (index = 0; index < length; index++) {
        bytes[index] = (uint8_t)(chance(3) == 0 ? chance(256) : chance(3));
    }
    unpack(bytes, length, &lots);
    passed++;
}

int main(void) {
    int round;

    test_bytes();
    test_largest();
    for (round = 0; round < ROUNDS; round++) {
        test_round(round % 4 == 0 ? random_standard() : random_table());
        test_anything();
    }
    return checked();
}
