/*
 * Where the sections of a township are, and which of their quarter-quarters are lots.
 */
#include "land.h"

#include "miscadmin.h"

/* The places along a side of a quarter-quarter section, which is also that of a lot. */
#define PLACES_OF_CELL (TOWNSHIP_PLACES_ACROSS / TWPG_CELLS_ACROSS)

/* Sections are numbered from the northeast corner, to the west in the first row, and back to the east in the next. The
   index of a section is its number less 1. */
twpg_spot twpg_spot_of(int section) {
    int from_north = section / TWPG_SECTIONS_ACROSS;
    int along = section % TWPG_SECTIONS_ACROSS;
    twpg_spot spot = {from_north, from_north % 2 == 0 ? along : TWPG_SECTIONS_ACROSS - 1 - along};

    return spot;
}

/* The parts of land that its text names, which are allocated, and how many there are. The library says how much room
   many of them need. */
township_part *twpg_parts_of(const township_land *land, size_t *count) {
    township_part *parts = palloc(TWPG_USUAL_PARTS * sizeof *parts);
    township_answer answer;

    check_stack_depth();
    answer = township_land_parts(land, parts, TWPG_USUAL_PARTS);
    if (answer.verdict == TOWNSHIP_NO_ROOM) {
        parts = repalloc(parts, (size_t)answer.length * sizeof *parts);
        answer = township_land_parts(land, parts, (size_t)answer.length);
    }
    if (answer.verdict == TOWNSHIP_OTHER_PLAT) {
        twpg_fail_of_own_lots("Pass its lot table, too: parts(lots, land).");
    }
    if (answer.verdict != TOWNSHIP_ACCEPTED) {
        twpg_fail(answer.verdict);
    }
    *count = (size_t)answer.length;
    return parts;
}

/* All land of a township, except for the southeast quarter-quarter of each section, which is in no lot. Its text names
   each lot, because no section of it is whole. */
static township_land all_but_corners(const township_designation *township) {
    township_land land;
    int section;
    int row;

    memset(&land, 0, sizeof land);
    memset(land.rows, 0xFF, sizeof land.rows);
    land.township = *township;
    for (section = 0; section < TOWNSHIP_SECTIONS; section++) {
        for (row = 0; row < PLACES_OF_CELL; row++) {
            land.rows[section][row] = UINT32_MAX << PLACES_OF_CELL;
        }
    }
    return land;
}

/* The numbers of the lots, which are the same in every township, as the library names them. */
void twpg_find_lots(const township_designation *township, twpg_lot_numbers *lots) {
    township_land land = all_but_corners(township);
    township_part *parts;
    size_t count;
    size_t index;

    parts = twpg_parts_of(&land, &count);
    memset(lots, 0, sizeof *lots);
    for (index = 0; index < count; index++) {
        const township_part *part = &parts[index];

        if (part->lot > 0) {
            lots->at[part->section - 1][part->row / PLACES_OF_CELL][part->column / PLACES_OF_CELL] = part->lot;
        }
    }
    pfree(parts);
}

/* The number at a place of a section by a table that says where its lots lie. */
static uint8_t mapped_at(const township_lots *lots, int section, int row, int column) {
    int cell = row / PLACES_OF_CELL * TWPG_CELLS_ACROSS + column / PLACES_OF_CELL;
    int place = row % PLACES_OF_CELL * PLACES_OF_CELL + column % PLACES_OF_CELL;
    uint8_t number = lots->positions[TWPG_CELLS_ACROSS * TWPG_CELLS_ACROSS * section + cell];

    return number <= TWPG_NOT_THERE
               ? number
               : lots->divided[PLACES_OF_CELL * PLACES_OF_CELL * (number - TWPG_NOT_THERE - 1) + place];
}

/* The lots of a section, by a table that says where they lie, or else the standard ones. */
void twpg_find_section(const township_lots *mapped, const twpg_lot_numbers *standard, twpg_lotted *section) {
    int row;
    int column;

    for (row = 0; row < TOWNSHIP_PLACES_ACROSS; row++) {
        for (column = 0; column < TOWNSHIP_PLACES_ACROSS; column++) {
            section->lots[row][column] =
                mapped != NULL ? mapped_at(mapped, section->index, row, column)
                               : standard->at[section->index][row / PLACES_OF_CELL][column / PLACES_OF_CELL];
        }
    }
}

/* The places of a lot in a section. */
twpg_places twpg_places_of_lot(const twpg_lotted *section, uint8_t lot) {
    twpg_places places = {{0}};
    int row;
    int column;

    for (row = 0; row < TOWNSHIP_PLACES_ACROSS; row++) {
        for (column = 0; column < TOWNSHIP_PLACES_ACROSS; column++) {
            places.rows[row] |= (uint32_t)(section->lots[row][column] == lot) << column;
        }
    }
    return places;
}

/* Whether some of the land is in a section. */
bool twpg_is_touched(const township_land *land, int section) {
    uint32_t any = 0;
    int row;

    for (row = 0; row < TOWNSHIP_PLACES_ACROSS; row++) {
        any |= land->rows[section][row];
    }
    return any != 0;
}
