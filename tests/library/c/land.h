/* The tests of the calls on land, of those on townships and by a lot table, and of those for readings and
   for the parts of a text. */
#ifndef LAND_H
#define LAND_H

#include "township.h"

/* Tries each call on land, with the plat of samples/b1.csv. */
void answers_land(const township_plat *plat);

/* Tries the calls on the names of townships. */
void answers_designations(void);

/* Tries the call that splits a text into the parts of its townships. */
void answers_split(void);

/* Tries each call by a lot table. */
void answers_lots(void);

/* Tries the calls on land on the plat of a lot table. */
void answers_lot_lands(void);

/* Tries the calls that answer lists of tracts, and many descriptions, by a lot table. */
void answers_lot_lists(void);

/* Tries the call for readings, with the plat of samples/b1.csv. */
void answers_readings(const township_plat *plat);

/* Tries the call for readings on the plat of a lot table. */
void answers_lot_readings(void);

/* Land of T. 2 N., R. 3 W., which the description names in a township with the standard lots. */
township_land land_of(const char *text);

/* The lot table of a text that is one. */
township_lots table_of(const char *text);

/* The table of docs/LOTS-FORMAT.md, of T. 2 N., R. 3 W. with a lake; its plat has this date, as a field with a comma
   before it, or none. */
#define LAKE_OF(date)                                                                                              \
    "section,lot,acres,land\nT,2,N,3,W" date "\n"                                                                  \
    "5,1,40.45,NE1/4NE1/4\n"                                                                                       \
    "14,1,38.50,NE1/4NE1/4\n"                                                                                      \
    "14,2,12.25,N1/2NW1/4NE1/4\n"                                                                                  \
    "14,3,19.80,S1/2NW1/4NE1/4\n"                                                                                  \
    "14,4,71.10,\"E1/2NW1/4\"\n"                                                                                   \
    "14,,,NW1/4NW1/4\n"
#define LAKE LAKE_OF(",1912-03-04")

#endif
