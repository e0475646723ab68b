/*
 * What drawings show of a lot table: where its lots lie, and the acreage that it returns.
 */
#include "svg.h"

#include "miscadmin.h"

/* The largest figure of a lot, in hundredths of an acre. Any greater one says that the table lacks the lot. */
#define FIGURE_MOST 99999

static bool is_lot(uint8_t number) {
    return number > 0 && number < TWPG_NOT_THERE;
}

/* No land of a township, on the plat of a lot table. */
static township_land none_of(const township_lots *lots) {
    township_land land;

    memset(&land, 0, sizeof land);
    land.township = lots->township;
    land.date = lots->date;
    land.own_lots = lots->mapped != 0;
    return land;
}

/* Adds the places of a section that are on the plat, or those that are not. */
static void add_section(township_land *land, const township_lots *lots, int index, bool are_there) {
    const twpg_lot_numbers none = {{{{0}}}};
    twpg_lotted section = {.index = index};
    twpg_places absent;
    int row;

    twpg_find_section(lots->mapped != 0 ? lots : NULL, &none, &section);
    absent = twpg_places_of_lot(&section, TWPG_NOT_THERE);
    for (row = 0; row < TOWNSHIP_PLACES_ACROSS; row++) {
        land->rows[index][row] = are_there ? ~absent.rows[row] : absent.rows[row];
    }
}

/* All land that the plat has in a section, by its index, or in the township if that is negative. */
township_land twpg_all_of(const township_lots *lots, int section) {
    township_land land = none_of(lots);
    int index;

    for (index = 0; index < TOWNSHIP_SECTIONS; index++) {
        if (section < 0 || index == section) {
            add_section(&land, lots, index, true);
        }
    }
    return land;
}

/* The places of the township at which the plat has no land. */
township_land twpg_absent_in(const township_lots *lots) {
    township_land land = none_of(lots);
    int index;

    for (index = 0; index < TOWNSHIP_SECTIONS; index++) {
        add_section(&land, lots, index, false);
    }
    return land;
}

/* The acreage that a table returns for a lot of a section, by its index, unless the table lacks it. */
bool twpg_figure_in(const township_lots *lots, int section, int lot, uint64_t *hundredths) {
    int index;

    for (index = lots->first[section]; index < lots->first[section + 1]; index++) {
        uint32_t figure = lots->figures[index];

        if (lots->numbers[index] == lot && figure > 0 && figure <= FIGURE_MOST) {
            *hundredths = figure;
            return true;
        }
    }
    return false;
}

/* The acreage of land by a table, unless the table lacks one of its lots. */
bool twpg_acreage_in(const township_lots *lots, const township_land *land, uint64_t *hundredths) {
    township_answer answer;

    check_stack_depth();
    answer = township_lots_land_acres(lots, land);
    if (answer.verdict != TOWNSHIP_ACCEPTED && answer.verdict != TOWNSHIP_REFUSED) {
        twpg_fail_on_table(answer.verdict, lots, land);
    }
    *hundredths = answer.hundredths;
    return answer.verdict == TOWNSHIP_ACCEPTED;
}

/* The number at a place of a drawn section: none outside of it. */
static uint8_t number_at(const twpg_lotted *section, int x, int y) {
    bool is_inside = x >= 0 && y >= 0 && x < TOWNSHIP_PLACES_ACROSS && y < TOWNSHIP_PLACES_ACROSS;

    return is_inside ? section->lots[TOWNSHIP_PLACES_ACROSS - 1 - y][TOWNSHIP_PLACES_ACROSS - 1 - x] : 0;
}

/* Whether a place and its neighbor are not in the same lot, and one of them is in a lot. */
static bool is_side(const twpg_lotted *section, int x, int y, int to_x, int to_y) {
    uint8_t first = number_at(section, x, y);
    uint8_t second = number_at(section, to_x, to_y);

    return first != second && (is_lot(first) || is_lot(second));
}

/* Adds the sides of lots along a line: a row of places and the one above it, or a column and the one before it. */
static void add_sides(StringInfo svg, const twpg_lotted *section, int line, bool is_row, int left, int top) {
    int at = 0;

    while (at < TOWNSHIP_PLACES_ACROSS) {
        int from = at;

        while (at < TOWNSHIP_PLACES_ACROSS && (is_row ? is_side(section, at, line, at, line - 1)
                                                      : is_side(section, line, at, line - 1, at))) {
            at++;
        }
        if (at > from) {
            appendStringInfo(svg, is_row ? "M%d %dh%d" : "M%d %dv%d", left + (is_row ? from : line),
                             top + (is_row ? line : from), at - from);
        }
        at++;
    }
}

/* Adds the sides of all lots of a section to a path. */
void twpg_add_lot_lines(StringInfo svg, const twpg_lotted *section, int left, int top) {
    int line;

    for (line = 0; line <= TOWNSHIP_PLACES_ACROSS; line++) {
        add_sides(svg, section, line, true, left, top);
        add_sides(svg, section, line, false, left, top);
    }
}

/* How many places of a row are in a lot, from one on and at most so many. */
static int run_from(const twpg_lotted *section, int lot, int x, int y, int most) {
    int width = 0;

    while (width < most && number_at(section, x + width, y) == lot) {
        width++;
    }
    return width;
}

/* The middle of the largest rectangle of a lot that begins with one of its rows: there is room for its number. */
void twpg_find_middle(const twpg_lotted *section, int lot, double *x, double *y) {
    int largest = 0;
    int place;

    for (place = 0; place < TOWNSHIP_PLACES_ACROSS * TOWNSHIP_PLACES_ACROSS; place++) {
        int left = place % TOWNSHIP_PLACES_ACROSS;
        int top = place / TOWNSHIP_PLACES_ACROSS;
        int width = run_from(section, lot, left, top, TOWNSHIP_PLACES_ACROSS);
        int height = 0;

        while (width > 0 && run_from(section, lot, left, top + height, width) == width) {
            height++;
        }
        if (width * height > largest) {
            largest = width * height;
            *x = left + width / 2.0;
            *y = top + height / 2.0;
        }
    }
}
