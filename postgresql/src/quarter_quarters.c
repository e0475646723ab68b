/*
 * The functions quarter_quarters(land) and quarter_quarters(lots, land): a row for each lot and each other
 * quarter-quarter section that has some of the land, for a join with the parcels of a GIS, which have the number of
 * their section and the name of such a part. On the plat of a lot table, a lot may lie in several quarter-quarters, or
 * share one with others.
 */
#include "land.h"
#include "lots.h"

#include "utils/tuplestore.h"

#define PLACES_OF_CELL (TOWNSHIP_PLACES_ACROSS / TWPG_CELLS_ACROSS)
#define CELLS (TWPG_CELLS_ACROSS * TWPG_CELLS_ACROSS)

/* A quarter of a square: its name, and whether it is in the north and in the west. */
static const struct {
    const char *name;
    int north;
    int west;
} quarters[] = {{"NE", 1, 0}, {"NW", 1, 1}, {"SW", 0, 1}, {"SE", 0, 0}};

/* A quarter-quarter section: its row from the south, its column from the east, and its name. */
typedef struct twpg_cell {
    int row;
    int column;
    char name[2 * sizeof "NE"];
} twpg_cell;

/* The quarter-quarters in order: those of the northeast quarter first, and so in each quarter. */
static twpg_cell cell_of(int index) {
    int outer = index / (int)lengthof(quarters);
    int inner = index % (int)lengthof(quarters);
    twpg_cell cell = {2 * quarters[outer].north + quarters[inner].north,
                      2 * quarters[outer].west + quarters[inner].west, ""};

    snprintf(cell.name, sizeof cell.name, "%s%s", quarters[inner].name, quarters[outer].name);
    return cell;
}

/* Adds a row, if some of the places are in the land. It has the number of a lot, or the name of a quarter-quarter. */
static void add_row(ReturnSetInfo *result, const township_land *land, int section, const twpg_places *places, int lot,
                    const char *name) {
    township_land part;
    uint32_t held = 0;
    uint32_t missing = 0;
    int row;

    memset(&part, 0, sizeof part);
    part.township = land->township;
    part.date = land->date;
    part.own_lots = land->own_lots;
    for (row = 0; row < TOWNSHIP_PLACES_ACROSS; row++) {
        part.rows[section][row] = land->rows[section][row] & places->rows[row];
        held |= part.rows[section][row];
        missing |= places->rows[row] & ~land->rows[section][row];
    }
    if (held != 0) {
        Datum values[] = {Int32GetDatum(section + 1), Int32GetDatum(lot), CStringGetTextDatum(name),
                          BoolGetDatum(missing == 0), twpg_land_datum(&part)};
        bool nulls[] = {false, lot == 0, lot != 0, false, false};

        tuplestore_putvalues(result->setResult, result->setDesc, values, nulls);
    }
}

/* The places of a quarter-quarter that are in no lot, and the lots that the others are in. */
static twpg_places look_at(const twpg_lotted *section, const twpg_cell *cell, bool *is_here) {
    twpg_places others = {{0}};
    int place;

    for (place = 0; place < PLACES_OF_CELL * PLACES_OF_CELL; place++) {
        int row = cell->row * PLACES_OF_CELL + place / PLACES_OF_CELL;
        int column = cell->column * PLACES_OF_CELL + place % PLACES_OF_CELL;
        uint8_t lot = section->lots[row][column];

        if (lot == 0) {
            others.rows[row] |= UINT32_C(1) << column;
        } else if (lot < TWPG_NOT_THERE) {
            is_here[lot] = true;
        }
    }
    return others;
}

/* Adds the rows of a quarter-quarter: those of its lots that no earlier one has, and that of what is in no lot. */
static void add_cell(ReturnSetInfo *result, const township_land *land, const twpg_lotted *section,
                     const twpg_cell *cell, bool *is_added) {
    bool is_here[TWPG_NOT_THERE] = {false};
    twpg_places others = look_at(section, cell, is_here);
    int lot;

    for (lot = 1; lot < TWPG_NOT_THERE; lot++) {
        if (is_here[lot] && !is_added[lot]) {
            twpg_places places = twpg_places_of_lot(section, (uint8_t)lot);

            is_added[lot] = true;
            add_row(result, land, section->index, &places, lot, "");
        }
    }
    add_row(result, land, section->index, &others, 0, cell->name);
}

/* Adds all rows of land, whose lots are those of a table that says where they lie, or else the standard ones. */
static void add_rows(ReturnSetInfo *result, const township_land *land, const township_lots *mapped) {
    twpg_lot_numbers standard = {{{{0}}}};
    twpg_lotted section;

    if (mapped == NULL) {
        twpg_find_lots(&land->township, &standard);
    }
    for (section.index = 0; section.index < TOWNSHIP_SECTIONS; section.index++) {
        bool is_added[TWPG_NOT_THERE] = {false};
        int index;

        if (!twpg_is_touched(land, section.index)) {
            continue;
        }
        twpg_find_section(mapped, &standard, &section);
        for (index = 0; index < CELLS; index++) {
            twpg_cell cell = cell_of(index);

            add_cell(result, land, &section, &cell, is_added);
        }
    }
}

PG_FUNCTION_INFO_V1(twpg_quarter_quarters);
Datum twpg_quarter_quarters(PG_FUNCTION_ARGS) {
    ReturnSetInfo *result = twpg_begin_rows(fcinfo);
    township_land land;

    twpg_land_of(PG_GETARG_LAND(0), &land);
    if (land.own_lots != 0) {
        twpg_fail_of_own_lots("Pass its lot table, too: quarter_quarters(lots, land).");
    }
    add_rows(result, &land, NULL);
    PG_RETURN_NULL();
}

/* The same by a lot table. */
PG_FUNCTION_INFO_V1(twpg_quarter_quarters_by_lots);
Datum twpg_quarter_quarters_by_lots(PG_FUNCTION_ARGS) {
    ReturnSetInfo *result = twpg_begin_rows(fcinfo);
    const township_lots *lots = PG_GETARG_LOTS(0);
    township_land land;

    twpg_land_of(PG_GETARG_LAND(1), &land);
    twpg_check_on_table(lots, &land);
    add_rows(result, &land, lots->mapped != 0 ? lots : NULL);
    PG_RETURN_NULL();
}
