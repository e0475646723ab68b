/*
 * The functions parts(land) and parts(lots, land): the written parts of land as rows, in the order of its canonical
 * text. By a lot table, the lots of a section are those of the table.
 */
#include "land.h"
#include "lots.h"

#include "utils/tuplestore.h"

/* A section without standard lots, by its index: what it holds is written in aliquot parts alone. */
#define WITHOUT_LOTS 13

/* The places of a part of land, in a section, as land on the same plat. */
static Datum land_datum_of(const township_land *whole, int section, const twpg_places *places) {
    township_land land;

    memset(&land, 0, sizeof land);
    land.township = whole->township;
    land.date = whole->date;
    land.own_lots = whole->own_lots;
    memcpy(land.rows[section], places->rows, sizeof places->rows);
    return twpg_land_datum(&land);
}

/* Adds the row of a part, which is a lot, or another part if the lot's number is 0. */
static void add_row(ReturnSetInfo *result, const township_land *land, int section, int lot, const twpg_places *places) {
    Datum values[] = {Int32GetDatum(section + 1), Int32GetDatum(lot), land_datum_of(land, section, places)};
    bool nulls[] = {false, lot == 0, false};

    tuplestore_putvalues(result->setResult, result->setDesc, values, nulls);
}

static twpg_places places_of(const township_part *part) {
    uint32_t columns = (uint32_t)((UINT64_C(1) << part->columns) - 1) << part->column;
    twpg_places places = {{0}};
    int row;

    for (row = 0; row < part->rows; row++) {
        places.rows[part->row + row] = columns;
    }
    return places;
}

PG_FUNCTION_INFO_V1(twpg_parts);
Datum twpg_parts(PG_FUNCTION_ARGS) {
    ReturnSetInfo *result = twpg_begin_rows(fcinfo);
    township_part *parts;
    township_land land;
    size_t count;
    size_t index;

    twpg_land_of(PG_GETARG_LAND(0), &land);
    parts = twpg_parts_of(&land, &count);
    for (index = 0; index < count; index++) {
        twpg_places places = places_of(&parts[index]);

        add_row(result, &land, parts[index].section - 1, parts[index].lot, &places);
    }
    PG_RETURN_NULL();
}

/* Adds the rows of places in no lot, in the order in which the library writes aliquot parts. */
static void add_others(ReturnSetInfo *result, const township_land *land, int section, const twpg_places *others) {
    township_land moved;
    township_part *parts;
    size_t count;
    size_t index;

    memset(&moved, 0, sizeof moved);
    moved.township = land->township;
    memcpy(moved.rows[WITHOUT_LOTS], others->rows, sizeof others->rows);
    parts = twpg_parts_of(&moved, &count);
    for (index = 0; index < count; index++) {
        twpg_places places = places_of(&parts[index]);

        add_row(result, land, section, 0, &places);
    }
    pfree(parts);
}

/* What land contains of a section: each lot, and the places in no lot; and whether that is all that the plat has
   there. */
typedef struct twpg_held {
    bool lots[TWPG_NOT_THERE];
    twpg_places others;
    bool is_whole;
} twpg_held;

static twpg_held held_in(const township_land *land, const twpg_lotted *section) {
    twpg_held held = {.is_whole = true};
    int row;
    int column;

    for (row = 0; row < TOWNSHIP_PLACES_ACROSS; row++) {
        for (column = 0; column < TOWNSHIP_PLACES_ACROSS; column++) {
            bool is_held = land->rows[section->index][row] >> column & 1;
            uint8_t lot = section->lots[row][column];

            if (!is_held) {
                held.is_whole = held.is_whole && lot == TWPG_NOT_THERE;
            } else if (lot > 0 && lot < TWPG_NOT_THERE) {
                held.lots[lot] = true;
            } else {
                held.others.rows[row] |= UINT32_C(1) << column;
            }
        }
    }
    return held;
}

/* Adds the rows of a section: one if all of it is in the land, or else first the lots. */
static void add_section(ReturnSetInfo *result, const township_land *land, const twpg_lotted *section) {
    twpg_held held = held_in(land, section);
    twpg_places places;
    int lot;

    if (held.is_whole) {
        memcpy(places.rows, land->rows[section->index], sizeof places.rows);
        add_row(result, land, section->index, 0, &places);
        return;
    }
    for (lot = 1; lot < TWPG_NOT_THERE; lot++) {
        if (held.lots[lot]) {
            places = twpg_places_of_lot(section, (uint8_t)lot);
            add_row(result, land, section->index, lot, &places);
        }
    }
    add_others(result, land, section->index, &held.others);
}

/* The parts of land by a lot table. */
PG_FUNCTION_INFO_V1(twpg_parts_by_lots);
Datum twpg_parts_by_lots(PG_FUNCTION_ARGS) {
    ReturnSetInfo *result = twpg_begin_rows(fcinfo);
    const township_lots *lots = PG_GETARG_LOTS(0);
    twpg_lot_numbers standard = {{{{0}}}};
    twpg_lotted section;
    township_land land;

    twpg_land_of(PG_GETARG_LAND(1), &land);
    twpg_check_on_table(lots, &land);
    if (lots->mapped == 0) {
        twpg_find_lots(&land.township, &standard);
    }
    for (section.index = 0; section.index < TOWNSHIP_SECTIONS; section.index++) {
        if (twpg_is_touched(&land, section.index)) {
            twpg_find_section(lots->mapped != 0 ? lots : NULL, &standard, &section);
            add_section(result, &land, &section);
        }
    }
    PG_RETURN_NULL();
}
