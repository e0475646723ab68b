/* Tries the call that answers many descriptions in full. */
#ifndef MANY_H
#define MANY_H

#include "given.h"

/* On the plat of samples/b1.csv: the answers are those of the calls for one description. */
void answers_in_full(const township_plat *plat);

/* On parts that are no plat: each answer says so. */
void refuses_plat_in_full(const township_plat *plat);

#endif
