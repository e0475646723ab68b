/* Tries the calls that answer a list of tracts as data. */
#ifndef LISTS_H
#define LISTS_H

#include "given.h"

/* On the plat of samples/b1.csv: the account of lists, and the refusals of others, as township_report has them. */
void has_accounts(const township_plat *plat);

/* The answers to the tracts of lists, whatever is wrong with others. */
void has_answers_of_tracts(const township_plat *plat);

/* The overlaps of the tracts of lists. */
void has_overlaps(const township_plat *plat);

/* On parts that are no plat: nothing is written. */
void refuses_plat_of_lists(const township_plat *plat);

#endif
