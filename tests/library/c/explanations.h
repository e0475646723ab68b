/* The tests of the calls that explain and give the parts of their texts. */
#ifndef EXPLANATIONS_H
#define EXPLANATIONS_H

#include "township.h"

/* Tries each of them, with the plat of samples/b1.csv. */
void gives_parts(const township_plat *plat);

#endif
