/*
 * The figures in drawings: the acreage of lots, of sections, and of land, by a plat from field notes or by a lot table.
 */
#include "svg.h"

/* The acres of hundredths. */
static char *acres_text(uint64_t hundredths) {
    return psprintf(UINT64_FORMAT ".%02d", hundredths / 100, (int)(hundredths % 100));
}

/* The acres of a lot, or NULL if they are not known. */
char *twpg_acres_of_lot(const twpg_drawn *drawn, int section, int lot) {
    uint64_t figure;

    if (drawn->table != NULL) {
        return twpg_figure_in(drawn->table, section, lot, &figure) ? acres_text(figure) : NULL;
    }
    return drawn->plat != NULL ? acres_text(drawn->figures.lots[section][lot - 1]) : NULL;
}

/* The acres of all that the plat has in a section, or in the township if its index is negative; or NULL if they are not
   known. */
char *twpg_acres_of_all(const twpg_drawn *drawn, int section) {
    uint64_t acreage;

    if (drawn->table != NULL) {
        township_land all = twpg_all_of(drawn->table, section);

        return twpg_acreage_in(drawn->table, &all, &acreage) ? acres_text(acreage) : NULL;
    }
    if (drawn->plat == NULL) {
        return NULL;
    }
    return acres_text(section < 0 ? drawn->figures.township : drawn->figures.sections[section]);
}

/* The acres of the land by the plat. */
static char *acres_on_plat(const twpg_drawn *drawn, const township_land *land) {
    township_answer answer = township_land_acres(drawn->plat, land, TOWNSHIP_EXACT);

    if (answer.verdict == TOWNSHIP_OTHER_PLAT) {
        twpg_fail_of_own_lots("Draw it without a plat: svg(land).");
    }
    if (answer.verdict != TOWNSHIP_ACCEPTED) {
        twpg_site first = twpg_site_of_plat(drawn->plat);
        twpg_site second = twpg_site_of(land);

        twpg_fail_of_two(answer.verdict, &first, &second);
    }
    return acres_text(answer.hundredths);
}

/* The acres of the land, or NULL if they are not known. */
static char *acres_of_land(const twpg_drawn *drawn, const township_land *land) {
    uint64_t acreage;

    if (drawn->table != NULL) {
        return twpg_acreage_in(drawn->table, land, &acreage) ? acres_text(acreage) : NULL;
    }
    return drawn->plat != NULL ? acres_on_plat(drawn, land) : NULL;
}

/* The acres of the land, and of all that is drawn; or NULL if those of the land are not known. */
char *twpg_caption_of(const twpg_drawn *drawn, const township_land *land) {
    char *acres = acres_of_land(drawn, land);
    char *all = twpg_acres_of_all(drawn, drawn->section);

    if (acres == NULL) {
        return NULL;
    }
    return all == NULL ? psprintf("%s acres", acres) : psprintf("%s of %s acres", acres, all);
}
