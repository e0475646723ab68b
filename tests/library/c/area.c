#include "area.h"

/* By long division, bit by bit, because C has no 128-bit numbers. */
whole_units whole_units_of(township_fraction area) {
    whole_units whole = {0, 0};

    for (int bit = 127; bit >= 0; bit--) {
        uint64_t word = bit >= 64 ? area.units_high : area.units_low;
        uint64_t carried = whole.rest >> 63;

        whole.rest = whole.rest << 1 | (word >> (bit % 64) & 1);
        whole.units <<= 1;
        if (carried || whole.rest >= area.over) {
            whole.rest -= area.over;
            whole.units |= 1;
        }
    }
    return whole;
}

/* Fractions of a unit make no difference: a hundredth is 100,000 units, and half of it is whole too. */
uint64_t hundredths_of(township_fraction area) {
    return (whole_units_of(area).units + 50000) / 100000;
}
