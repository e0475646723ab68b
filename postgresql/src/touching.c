/*
 * The function touches(land, land): whether two parcels adjoin, along a side that is more than a corner.
 */
#include "land.h"

#include "miscadmin.h"

#define ROWS (TWPG_SECTIONS_ACROSS * TOWNSHIP_PLACES_ACROSS)

/* The places of a township: rows from the south, and in each a word for each section, from the east. In a word, the
   lowest bit is the easternmost place. */
typedef struct twpg_grid {
    uint32_t rows[ROWS][TWPG_SECTIONS_ACROSS];
} twpg_grid;

static void lay_out(const township_land *land, twpg_grid *grid) {
    int section;
    int row;

    for (section = 0; section < TOWNSHIP_SECTIONS; section++) {
        twpg_spot spot = twpg_spot_of(section);
        int south = (TWPG_SECTIONS_ACROSS - 1 - spot.from_north) * TOWNSHIP_PLACES_ACROSS;

        for (row = 0; row < TOWNSHIP_PLACES_ACROSS; row++) {
            grid->rows[south + row][spot.from_east] = land->rows[section][row];
        }
    }
}

/* The places to the west of those in a row. */
static void move_west(const uint32_t *row, uint32_t *moved) {
    uint32_t carried = 0;
    int section;

    for (section = 0; section < TWPG_SECTIONS_ACROSS; section++) {
        moved[section] = row[section] << 1 | carried;
        carried = row[section] >> 31;
    }
}

static bool rows_share(const uint32_t *first, const uint32_t *second) {
    uint32_t shared = 0;
    int section;

    for (section = 0; section < TWPG_SECTIONS_ACROSS; section++) {
        shared |= first[section] & second[section];
    }
    return shared != 0;
}

/* Whether a place in a row is beside one of the other row. */
static bool rows_adjoin(const uint32_t *first, const uint32_t *second) {
    uint32_t west_of_first[TWPG_SECTIONS_ACROSS];
    uint32_t west_of_second[TWPG_SECTIONS_ACROSS];

    move_west(first, west_of_first);
    move_west(second, west_of_second);
    return rows_share(west_of_first, second) || rows_share(west_of_second, first);
}

/* Whether two parcels share no place, but a place of one is beside a place of the other. */
static bool adjoin(const twpg_grid *first, const twpg_grid *second) {
    bool found = false;
    int row;

    for (row = 0; row < ROWS; row++) {
        if (rows_share(first->rows[row], second->rows[row])) {
            return false;
        }
        found = found || rows_adjoin(first->rows[row], second->rows[row]);
        if (row > 0) {
            found = found || rows_share(first->rows[row], second->rows[row - 1]) ||
                    rows_share(first->rows[row - 1], second->rows[row]);
        }
    }
    return found;
}

/* Parcels in two townships have no common grid, so whether they adjoin is not known. Those on two plats of one township
   are an error. */
PG_FUNCTION_INFO_V1(twpg_land_touches);
Datum twpg_land_touches(PG_FUNCTION_ARGS) {
    township_land first;
    township_land second;
    twpg_site here;
    twpg_site there;
    twpg_grid one;
    twpg_grid other;

    check_stack_depth();
    twpg_land_of(PG_GETARG_LAND(0), &first);
    twpg_land_of(PG_GETARG_LAND(1), &second);
    here = twpg_site_of(&first);
    there = twpg_site_of(&second);
    if (twpg_compare_townships(&here.township.number, &there.township.number) != 0) {
        PG_RETURN_NULL();
    }
    if (twpg_compare_sites(&here, &there) != 0) {
        twpg_fail_of_two(TOWNSHIP_OTHER_PLAT, &here, &there);
    }
    lay_out(&first, &one);
    lay_out(&second, &other);
    PG_RETURN_BOOL(adjoin(&one, &other));
}
