/*
 * What the files on readings share: texts without the phrases that the caller says are not land.
 */
#ifndef TWPG_READINGS_H
#define TWPG_READINGS_H

#include "twpg.h"

#include "lib/stringinfo.h"
#include "utils/array.h"

/* A text, and what is left of it: there are spaces in the places of phrases, which are in order. */
typedef struct twpg_aside {
    twpg_bytes given;
    twpg_bytes left;
    township_stretch *places;
    uint64_t count;
} twpg_aside;

/* aside.c: the text in an argument, without phrases, or without those in the next argument, which can be NULL. Phrases
   that are refused are an error. */
twpg_aside twpg_whole_argument(FunctionCallInfo fcinfo, int index);
twpg_aside twpg_argument_without(FunctionCallInfo fcinfo, int index);

/* suggest.c: bytes of a text on one line, and whether a text has readings by a lot table, or with the standard lots if that
   is NULL. */
void twpg_append_line(StringInfo line, const uint8_t *at, const uint8_t *end);
bool twpg_has_readings(twpg_bytes text, const township_lots *lots);

/* standard_lots.c: whether the land of a reading with this text depends on the lots of the plat. */
bool twpg_depends_on_lots(uint32_t manner, twpg_bytes text);

#endif
