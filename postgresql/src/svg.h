/*
 * What the files on drawings share: what is drawn, the acreage in it, and what a lot table adds to it.
 */
#ifndef TWPG_SVG_H
#define TWPG_SVG_H

#include "land.h"
#include "lots.h"

#include "lib/stringinfo.h"

/* What is drawn: land, a plat or a lot table, or NULL for both, and a section's index, or -1 for the whole township. */
typedef struct twpg_drawn {
    township_land land;
    const township_plat *plat;
    const township_lots *table;
    int section;
    twpg_lot_numbers lots; /* the standard ones, or none if the land is on a plat with others */
    township_plat_figures figures; /* if there is a plat */
} twpg_drawn;

/* svg_figures.c: acreage, or NULL if it is not known. A negative index of a section means the whole township. */
char *twpg_acres_of_lot(const twpg_drawn *drawn, int section, int lot);
char *twpg_acres_of_all(const twpg_drawn *drawn, int section);
char *twpg_caption_of(const twpg_drawn *drawn, const township_land *land);

/* svg_lots.c: where the lots of a table lie, and the acreage that it returns. A section is drawn with its northwest
   corner at a place. */
township_land twpg_all_of(const township_lots *lots, int section);
township_land twpg_absent_in(const township_lots *lots);
bool twpg_figure_in(const township_lots *lots, int section, int lot, uint64_t *hundredths);
bool twpg_acreage_in(const township_lots *lots, const township_land *land, uint64_t *hundredths);
void twpg_add_lot_lines(StringInfo svg, const twpg_lotted *section, int left, int top);
void twpg_find_middle(const twpg_lotted *section, int lot, double *x, double *y);

#endif
