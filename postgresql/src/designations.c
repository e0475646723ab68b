/*
 * The designations of townships: how they are written and ordered.
 */
#include "twpg.h"

char *twpg_township_text(uint8_t number, uint8_t north_south, uint8_t range, uint8_t east_west) {
    return psprintf("T. %u %c., R. %u %c.", number, north_south == TOWNSHIP_NORTH ? 'N' : 'S', range,
                    east_west == TOWNSHIP_EAST ? 'E' : 'W');
}

static int sign_of(int difference) {
    return (difference > 0) - (difference < 0);
}

/* Compares two designations, each of four bytes as in the library's structs: north before south of the base
   line, then the township's number, east before west of the meridian, and then the range's number. */
int twpg_compare_townships(const uint8_t *first, const uint8_t *second) {
    static const int order[] = {1, 0, 3, 2};
    int index;

    for (index = 0; index < (int)lengthof(order); index++) {
        int at = order[index];

        if (first[at] != second[at]) {
            return sign_of(first[at] - second[at]);
        }
    }
    return 0;
}
