/* Whole numbers from an exact area, whose units are square thousandths of a chain; 10,000,000 make an acre. */
#ifndef AREA_H
#define AREA_H

#include <stdint.h>

#include "township.h"

/* The whole units of an area, less than 2 to the 64th, and the remaining parts of a unit; `over` parts make one. */
typedef struct whole_units {
    uint64_t units;
    uint64_t rest;
} whole_units;

/* `area.over` is not 0. */
whole_units whole_units_of(township_fraction area);

/* Its hundredths of an acre, rounded half up. */
uint64_t hundredths_of(township_fraction area);

#endif
