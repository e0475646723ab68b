/*
 * The function svg: a drawing of a township, or of one of its sections, with land, as an SVG document that needs no
 * other file. Its unit is the side of a place. The figures on it are the library's. By a lot table, it shows the lots of
 * the table's plat, and the acreage that it returns.
 */
#include "svg.h"

#include "miscadmin.h"

#define ACROSS_TOWNSHIP (TWPG_SECTIONS_ACROSS * TOWNSHIP_PLACES_ACROSS)
#define PLACES_OF_CELL (TOWNSHIP_PLACES_ACROSS / TWPG_CELLS_ACROSS)

/* The most characters of the land's description: all of it may be very long. */
#define WORDS_MOST 500

/* A square of places, by rows from the north and in each from the west, and how many there are along a side. */
typedef struct twpg_picture {
    int across;
    bool *held;
} twpg_picture;

static int across_of(const twpg_drawn *drawn) {
    return drawn->section < 0 ? ACROSS_TOWNSHIP : TOWNSHIP_PLACES_ACROSS;
}

/* Whether a section is in the drawing, and where its northwest corner is in it. */
static bool find_corner(const twpg_drawn *drawn, int section, int *x, int *y) {
    twpg_spot spot = twpg_spot_of(section);

    if (drawn->section >= 0) {
        *x = *y = 0;
        return section == drawn->section;
    }
    *x = (TWPG_SECTIONS_ACROSS - 1 - spot.from_east) * TOWNSHIP_PLACES_ACROSS;
    *y = spot.from_north * TOWNSHIP_PLACES_ACROSS;
    return true;
}

/* Land has its rows from the south and its places from the east, pictures from the north and from the west. */
static void hold_section(const twpg_picture *picture, const uint32_t *rows, int left, int top) {
    int row;
    int column;

    for (row = 0; row < TOWNSHIP_PLACES_ACROSS; row++) {
        bool *held = picture->held + (top + TOWNSHIP_PLACES_ACROSS - 1 - row) * picture->across + left;

        for (column = 0; column < TOWNSHIP_PLACES_ACROSS; column++) {
            held[TOWNSHIP_PLACES_ACROSS - 1 - column] = rows[row] >> column & 1;
        }
    }
}

/* Whether the lots that are drawn are those of a table that says where they lie. */
static bool is_mapped(const twpg_drawn *drawn) {
    return drawn->table != NULL && drawn->table->mapped != 0;
}

static twpg_picture picture_of(const twpg_drawn *drawn, const township_land *land) {
    twpg_picture picture = {across_of(drawn), NULL};
    int section;
    int x;
    int y;

    picture.held = palloc0((size_t)(picture.across * picture.across) * sizeof *picture.held);
    for (section = 0; section < TOWNSHIP_SECTIONS; section++) {
        if (find_corner(drawn, section, &x, &y)) {
            hold_section(&picture, land->rows[section], x, y);
        }
    }
    return picture;
}

/* How many places of a row are held, from a place on and at most so many. */
static int run_from(const twpg_picture *picture, int x, int y, int most) {
    const bool *row = picture->held + y * picture->across;
    int width = 0;

    while (width < most && x + width < picture->across && row[x + width]) {
        width++;
    }
    return width;
}

/* Adds a rectangle whose first row is the run of held places that begins at a place, and takes it out of the
   picture. */
static void add_rectangle(StringInfo svg, const twpg_picture *picture, int x, int y) {
    int width = run_from(picture, x, y, picture->across);
    int height = 0;

    while (y + height < picture->across && run_from(picture, x, y + height, width) == width) {
        memset(picture->held + (y + height) * picture->across + x, 0, (size_t)width * sizeof *picture->held);
        height++;
    }
    appendStringInfo(svg, "M%d %dh%dv%dh-%dz", x, y, width, height, width);
}

/* Land as rectangles, no two of which overlap: at most one for each two places, of 16 characters or less. So a drawing
   takes less than 300 KB, and one by a lot table less than twice that. */
static void add_land(StringInfo svg, const twpg_drawn *drawn, const township_land *land, const char *attributes) {
    twpg_picture picture = picture_of(drawn, land);
    int x;
    int y;

    appendStringInfo(svg, "<path %s d=\"", attributes);
    for (y = 0; y < picture.across; y++) {
        for (x = 0; x < picture.across; x++) {
            if (picture.held[y * picture.across + x]) {
                add_rectangle(svg, &picture, x, y);
            }
        }
    }
    appendStringInfoString(svg, "\"/>\n");
    pfree(picture.held);
}

/* Lines across the drawing that are so many places apart, in both directions. */
static void add_lines(StringInfo svg, const char *name, int across, int apart, double width) {
    int at;

    appendStringInfo(svg, "<path class=\"%s\" stroke-width=\"%g\" d=\"", name, width);
    for (at = 0; at <= across; at += apart) {
        appendStringInfo(svg, "M0 %dh%dM%d 0v%d", at, across, at, across);
    }
    appendStringInfoString(svg, "\"/>\n");
}

/* What is added to a drawing for a lot, whose northwest corner is at a place. */
typedef void (*twpg_lot_adder)(StringInfo svg, const twpg_drawn *drawn, int section, int lot, int x, int y);

/* Adds something for each lot of a section. */
static void add_lots_of(StringInfo svg, const twpg_drawn *drawn, int section, twpg_lot_adder add) {
    int cell;
    int left;
    int top;

    if (!find_corner(drawn, section, &left, &top)) {
        return;
    }
    for (cell = 0; cell < TWPG_CELLS_ACROSS * TWPG_CELLS_ACROSS; cell++) {
        int row = cell / TWPG_CELLS_ACROSS;
        int column = cell % TWPG_CELLS_ACROSS;
        int lot = drawn->lots.at[section][row][column];

        if (lot > 0) {
            add(svg, drawn, section, lot, left + (TWPG_CELLS_ACROSS - 1 - column) * PLACES_OF_CELL,
                top + (TWPG_CELLS_ACROSS - 1 - row) * PLACES_OF_CELL);
        }
    }
}

/* Adds the sides of the lots of a table that says where they lie. */
static void add_mapped_lines(StringInfo svg, const twpg_drawn *drawn) {
    twpg_lotted section;
    int x;
    int y;

    for (section.index = 0; section.index < TOWNSHIP_SECTIONS; section.index++) {
        if (find_corner(drawn, section.index, &x, &y)) {
            twpg_find_section(drawn->table, &drawn->lots, &section);
            twpg_add_lot_lines(svg, &section, x, y);
        }
    }
}

static void add_lots(StringInfo svg, const twpg_drawn *drawn, twpg_lot_adder add) {
    int section;

    for (section = 0; section < TOWNSHIP_SECTIONS; section++) {
        add_lots_of(svg, drawn, section, add);
    }
}

static void add_lot(StringInfo svg, const twpg_drawn *drawn, int section, int lot, int x, int y) {
    (void)drawn;
    (void)section;
    (void)lot;
    appendStringInfo(svg, "M%d %dh%dv%dh-%dz", x, y, PLACES_OF_CELL, PLACES_OF_CELL, PLACES_OF_CELL);
}

/* Text between tags. All characters in it are ASCII. */
static void add_escaped(StringInfo svg, const char *words) {
    for (; *words != '\0'; words++) {
        switch (*words) {
        case '&':
            appendStringInfoString(svg, "&amp;");
            break;
        case '<':
            appendStringInfoString(svg, "&lt;");
            break;
        case '>':
            appendStringInfoString(svg, "&gt;");
            break;
        default:
            appendStringInfoChar(svg, *words);
        }
    }
}

/* An element that contains only text. */
static void add_element(StringInfo svg, const char *name, const char *words) {
    appendStringInfo(svg, "<%s>", name);
    add_escaped(svg, words);
    appendStringInfo(svg, "</%s>\n", name);
}

/* A line of text, whose middle is at a place. */
static void add_text(StringInfo svg, double x, double y, double size, const char *words) {
    appendStringInfo(svg, "<text x=\"%g\" y=\"%g\" font-size=\"%g\">", x, y, size);
    add_escaped(svg, words);
    appendStringInfoString(svg, "</text>\n");
}

/* The number of a lot and its acres around a place, on the sheet of its section. */
static void add_number_at(StringInfo svg, const twpg_drawn *drawn, int section, int lot, double x, double y) {
    char *acres = twpg_acres_of_lot(drawn, section, lot);

    add_text(svg, x, y, 1.2, psprintf("Lot %d", lot));
    if (acres != NULL) {
        add_text(svg, x, y + 1.5, 1, acres);
    }
}

static void add_lot_number(StringInfo svg, const twpg_drawn *drawn, int section, int lot, int x, int y) {
    add_number_at(svg, drawn, section, lot, x + PLACES_OF_CELL / 2.0, y + 4);
}

/* The same for the lots of the section that is drawn, by a table that says where they lie. */
static void add_mapped_numbers(StringInfo svg, const twpg_drawn *drawn) {
    const township_lots *table = drawn->table;
    twpg_lotted section = {.index = drawn->section};
    int index;

    twpg_find_section(table, &drawn->lots, &section);
    for (index = table->first[drawn->section]; index < table->first[drawn->section + 1]; index++) {
        double x = 0;
        double y = 0;

        twpg_find_middle(&section, table->numbers[index], &x, &y);
        add_number_at(svg, drawn, drawn->section, table->numbers[index], x, y);
    }
}

/* The number of each section, and its acres. */
static void add_section_numbers(StringInfo svg, const twpg_drawn *drawn) {
    int section;
    int x;
    int y;

    for (section = 0; section < TOWNSHIP_SECTIONS && drawn->section < 0; section++) {
        double middle = TOWNSHIP_PLACES_ACROSS / 2.0;
        char *acres = twpg_acres_of_all(drawn, section);

        (void)find_corner(drawn, section, &x, &y);
        add_text(svg, x + middle, y + middle + 1, 6, psprintf("%d", section + 1));
        if (acres != NULL) {
            add_text(svg, x + middle, y + middle + 5, 3, acres);
        }
    }
}

/* The land that is drawn: on the sheet of a section, what is in that section. */
static township_land land_on(const twpg_drawn *drawn) {
    township_land land = drawn->land;
    int section;

    for (section = 0; section < TOWNSHIP_SECTIONS && drawn->section >= 0; section++) {
        if (section != drawn->section) {
            memset(land.rows[section], 0, sizeof land.rows[section]);
        }
    }
    return land;
}

/* The description of the land, its beginning if it is long. */
static char *words_of(const twpg_drawn *drawn, const township_land *land) {
    char *words = drawn->table != NULL ? twpg_describe(land, drawn->table) : twpg_land_text(land);

    return strlen(words) <= WORDS_MOST ? words : psprintf("%.*s ..", WORDS_MOST, words);
}

/* Whether there is land in a section that is not drawn. */
static bool is_elsewhere(const twpg_drawn *drawn, const township_land *shown) {
    return memcmp(drawn->land.rows, shown->rows, sizeof shown->rows) != 0;
}

static char *title_of(const twpg_drawn *drawn) {
    const township_designation *at = &drawn->land.township;
    char *township = twpg_township_text(at->number, at->north_south, at->range, at->east_west);

    return drawn->section < 0 ? township : psprintf("Section %d, %s", drawn->section + 1, township);
}

/* The lines, from the finest. */
static void add_all_lines(StringInfo svg, const twpg_drawn *drawn, double unit) {
    int across = across_of(drawn);

    appendStringInfoString(svg, "<g fill=\"none\" stroke=\"#000\">\n");
    if (drawn->section >= 0) {
        add_lines(svg, "quarter-quarters", across, PLACES_OF_CELL, 0.3 * unit);
    }
    add_lines(svg, "quarters", across, TOWNSHIP_PLACES_ACROSS / 2, (drawn->section < 0 ? 0.15 : 0.6) * unit);
    appendStringInfo(svg, "<path class=\"lots\" stroke-width=\"%g\" d=\"", 0.2 * unit);
    if (is_mapped(drawn)) {
        add_mapped_lines(svg, drawn);
    } else {
        add_lots(svg, drawn, add_lot);
    }
    appendStringInfoString(svg, "\"/>\n");
    add_lines(svg, "sections", across, TOWNSHIP_PLACES_ACROSS, 0.8 * unit);
    appendStringInfoString(svg, "</g>\n");
}

/* The numbers and figures, each with a white edge, because lines cross them. */
static void add_numbers(StringInfo svg, const twpg_drawn *drawn, double unit) {
    appendStringInfo(svg, "<g stroke=\"#fff\" stroke-width=\"%g\" paint-order=\"stroke\">\n", unit);
    add_section_numbers(svg, drawn);
    if (drawn->section >= 0 && is_mapped(drawn)) {
        add_mapped_numbers(svg, drawn);
    } else if (drawn->section >= 0) {
        add_lots(svg, drawn, add_lot_number);
    }
    appendStringInfoString(svg, "</g>\n");
}

/* Everything, in a frame. Lengths in it are counted in 192nds of a side, so that both kinds of sheets look alike. */
static text *drawing_of(const twpg_drawn *drawn) {
    double unit = (double)across_of(drawn) / ACROSS_TOWNSHIP;
    township_land land = land_on(drawn);
    char *words = words_of(drawn, &land);
    char *title = title_of(drawn);
    char *caption = twpg_caption_of(drawn, &land);
    StringInfoData svg;

    initStringInfo(&svg);
    appendStringInfo(&svg,
                     "<svg xmlns=\"http://www.w3.org/2000/svg\" viewBox=\"%g %g %g %g\" width=\"200mm\" "
                     "height=\"216mm\" role=\"img\" font-family=\"Georgia, serif\" text-anchor=\"middle\">\n",
                     -4 * unit, -14 * unit, 200 * unit, 216 * unit);
    add_element(&svg, "title", title);
    if (is_elsewhere(drawn, &land)) {
        words = psprintf("%s There is more in other sections.", words);
    }
    add_element(&svg, "desc", words);
    appendStringInfo(&svg, "<rect x=\"%g\" y=\"%g\" width=\"%g\" height=\"%g\" fill=\"#fff\"/>\n", -4 * unit,
                     -14 * unit, 200 * unit, 216 * unit);
    add_text(&svg, 96 * unit, -5 * unit, 7 * unit, title);
    if (is_mapped(drawn)) {
        township_land absent = twpg_absent_in(drawn->table);

        add_land(&svg, drawn, &absent, "class=\"absent\" fill=\"#268bd2\" fill-opacity=\"0.3\"");
    }
    add_land(&svg, drawn, &drawn->land, "class=\"land\" fill=\"#b58900\" fill-opacity=\"0.4\"");
    add_all_lines(&svg, drawn, unit);
    add_numbers(&svg, drawn, unit);
    if (caption != NULL) {
        add_text(&svg, 96 * unit, 199 * unit, 5 * unit, caption);
    }
    appendStringInfoString(&svg, "</svg>\n");
    return cstring_to_text_with_len(svg.data, svg.len);
}

/* The index of a section that is given by its number. */
static int section_of(int32 number) {
    if (number < 1 || number > TOWNSHIP_SECTIONS) {
        ereport(ERROR, (errcode(ERRCODE_INVALID_PARAMETER_VALUE), errmsg("there is no section %d", number),
                        errhint("A township has sections 1 to %d.", TOWNSHIP_SECTIONS)));
    }
    return number - 1;
}

/* The land that is drawn, with the standard lots unless it is on a plat with others. */
static twpg_drawn *drawn_of(const struct varlena *land, int section) {
    twpg_drawn *drawn = palloc0(sizeof *drawn);

    check_stack_depth();
    twpg_land_of(land, &drawn->land);
    drawn->section = section;
    if (drawn->land.own_lots == 0) {
        twpg_find_lots(&drawn->land.township, &drawn->lots);
    }
    return drawn;
}

static text *draw_by_lots(const township_lots *lots, const struct varlena *land, int section) {
    twpg_drawn *drawn = drawn_of(land, section);

    twpg_check_on_table(lots, &drawn->land);
    drawn->table = lots;
    return drawing_of(drawn);
}

static text *draw(const township_plat *plat, const struct varlena *land, int section) {
    twpg_drawn *drawn = drawn_of(land, section);

    drawn->plat = plat;
    if (plat != NULL) {
        uint32_t verdict = township_figures(plat, &drawn->figures).verdict;

        if (verdict != TOWNSHIP_ACCEPTED) {
            twpg_fail(verdict);
        }
    }
    return drawing_of(drawn);
}

PG_FUNCTION_INFO_V1(twpg_svg);
Datum twpg_svg(PG_FUNCTION_ARGS) {
    PG_RETURN_TEXT_P(draw(NULL, PG_GETARG_LAND(0), -1));
}

PG_FUNCTION_INFO_V1(twpg_svg_on_plat);
Datum twpg_svg_on_plat(PG_FUNCTION_ARGS) {
    PG_RETURN_TEXT_P(draw(PG_GETARG_PLAT(0), PG_GETARG_LAND(1), -1));
}

PG_FUNCTION_INFO_V1(twpg_svg_of_section_on_plat);
Datum twpg_svg_of_section_on_plat(PG_FUNCTION_ARGS) {
    PG_RETURN_TEXT_P(draw(PG_GETARG_PLAT(0), PG_GETARG_LAND(1), section_of(PG_GETARG_INT32(2))));
}

PG_FUNCTION_INFO_V1(twpg_svg_by_lots);
Datum twpg_svg_by_lots(PG_FUNCTION_ARGS) {
    PG_RETURN_TEXT_P(draw_by_lots(PG_GETARG_LOTS(0), PG_GETARG_LAND(1), -1));
}

PG_FUNCTION_INFO_V1(twpg_svg_of_section_by_lots);
Datum twpg_svg_of_section_by_lots(PG_FUNCTION_ARGS) {
    PG_RETURN_TEXT_P(draw_by_lots(PG_GETARG_LOTS(0), PG_GETARG_LAND(1), section_of(PG_GETARG_INT32(2))));
}
