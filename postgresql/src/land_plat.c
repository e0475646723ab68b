/*
 * Which of its township's plats land is on, and the errors for land on different plats. Land of one plat is never
 * compared with land of another one: a lot can lie elsewhere on each.
 */
#include "land.h"

#include "utils/date.h"
#include "utils/datetime.h"

/* A date is a number: 10,000 times the year, 100 times the month, and the day. */
#define YEAR_OF(date) ((int)((date) / 10000))
#define MONTH_OF(date) ((int)((date) / 100 % 100))
#define DAY_OF(date) ((int)((date) % 100))
#define YEAR_MOST 9999

static int days_in(int year, int month) {
    return day_tab[isleap(year) ? 1 : 0][month - 1];
}

/* Whether a number is the date of a day that there is. */
bool twpg_is_date(uint32_t date) {
    int month = MONTH_OF(date);

    return YEAR_OF(date) >= 1 && YEAR_OF(date) <= YEAR_MOST && month >= 1 && month <= MONTHS_PER_YEAR &&
           DAY_OF(date) >= 1 && DAY_OF(date) <= days_in(YEAR_OF(date), month);
}

/* A date as in 1912-03-04. */
char *twpg_date_text(uint32_t date) {
    return psprintf("%04d-%02d-%02d", YEAR_OF(date), MONTH_OF(date), DAY_OF(date));
}

/* A date as the database counts it. */
int32 twpg_date_of(uint32_t date) {
    return date2j(YEAR_OF(date), MONTH_OF(date), DAY_OF(date)) - POSTGRES_EPOCH_JDATE;
}

twpg_site twpg_site_of(const township_land *land) {
    twpg_site site = {land->township, land->date, land->own_lots};

    return site;
}

/* The site of a plat that is made from field notes, which has the standard lots and no date. */
twpg_site twpg_site_of_plat(const township_plat *plat) {
    twpg_site site = {{plat->number, plat->north_south, plat->range, plat->east_west}, 0, 0};

    return site;
}

/* The order of sites: by township, and in a township by the date of the plat. The standard lots come first. */
int twpg_compare_sites(const twpg_site *first, const twpg_site *second) {
    int order = twpg_compare_townships(&first->township.number, &second->township.number);

    if (order == 0) {
        order = (first->date > second->date) - (first->date < second->date);
    }
    return order != 0 ? order : (int)first->own_lots - (int)second->own_lots;
}

static char *township_text(const twpg_site *site) {
    const township_designation *at = &site->township;

    return twpg_township_text(at->number, at->north_south, at->range, at->east_west);
}

/* Says which plat a site is of: its date, and whose lots it has if that is a difference. */
static char *plat_text(const twpg_site *site, bool name_lots) {
    char *lots = site->own_lots != 0 ? "with its lots" : "with the standard lots";
    char *date = site->date != 0 ? psprintf("of %s", twpg_date_text(site->date)) : "without a date";

    return name_lots ? psprintf("%s%s%s", date, site->date != 0 ? " " : " and ", lots) : date;
}

/* What is wrong with two things, by the library's verdict: they are in two townships, or on two plats of one. */
twpg_explanation twpg_explain_two(uint32_t verdict, const twpg_site *first, const twpg_site *second) {
    twpg_explanation explained = {0, 0, NULL, NULL, NULL};
    bool name_lots = first->own_lots != second->own_lots;

    if (verdict == TOWNSHIP_OTHER_TOWNSHIP) {
        explained.sentence = pstrdup("these are in two different townships");
        explained.help =
            psprintf("The first is in %s; the second is in %s", township_text(first), township_text(second));
    } else {
        explained.sentence = psprintf("these are of different plats of %s: one %s, one %s", township_text(first),
                                      plat_text(first, name_lots), plat_text(second, name_lots));
    }
    return explained;
}

void twpg_fail_of_site(twpg_explanation explained) {
    ereport(ERROR, (errcode(twpg_sqlstate_of(TWPG_OTHER_SITE)), errmsg("%s", explained.sentence),
                    explained.help == NULL ? 0 : errdetail("%s", explained.help)));
}

/* The error for what is in two townships or on two plats, or for another verdict. */
void twpg_fail_of_two(uint32_t verdict, const twpg_site *first, const twpg_site *second) {
    if (verdict == TOWNSHIP_OTHER_TOWNSHIP || verdict == TOWNSHIP_OTHER_PLAT) {
        twpg_fail_of_site(twpg_explain_two(verdict, first, second));
    }
    twpg_fail(verdict);
}

/* The error of a function that knows only the standard lots. The hint names what to call instead. */
void twpg_fail_of_own_lots(const char *instead) {
    ereport(ERROR, (errcode(twpg_sqlstate_of(TWPG_OTHER_SITE)),
                    errmsg("this land is of a plat with lots of its own"), errhint("%s", instead)));
}

/* The date of the plat's approval, or NULL if it is not known. */
PG_FUNCTION_INFO_V1(twpg_land_plat_date);
Datum twpg_land_plat_date(PG_FUNCTION_ARGS) {
    uint32_t date = twpg_site_of_packed(twpg_packed_of(PG_GETARG_LAND(0))).date;

    if (date == 0) {
        PG_RETURN_NULL();
    }
    PG_RETURN_DATEADT(twpg_date_of(date));
}

/* Whether the plat's lots are those of a lot table, and not the standard ones. */
PG_FUNCTION_INFO_V1(twpg_land_has_own_lots);
Datum twpg_land_has_own_lots(PG_FUNCTION_ARGS) {
    PG_RETURN_BOOL(twpg_site_of_packed(twpg_packed_of(PG_GETARG_LAND(0))).own_lots != 0);
}
