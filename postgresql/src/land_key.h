/*
 * Keys of the GiST index on lands. A key says in which townships lands are, as a box of townships, and if
 * they are all in one township, which quarter-quarters of its sections they touch, whether one of them is
 * empty, and on which plat they are, or that they are on several.
 *
 * The bytes of a packed key: the box, in four bytes, and for a single township the sections that are touched,
 * in five bytes, with four bits after those of the sections: for an empty land; for a plat with lots of its own;
 * for a plat with a date; and for several plats. The date follows in four bytes, if there is one; and for each of
 * these sections in order two bytes, with a bit for each quarter-quarter. A key of several townships has only the
 * box, since lands in many townships together touch nearly everything.
 */
#ifndef TWPG_LAND_KEY_H
#define TWPG_LAND_KEY_H

#include "land.h"

/* A position in the grid of townships: of the tier, counted north from the base line, and of the range,
   counted east from the meridian. T. 1 N. and R. 1 E. are 0, T. 1 S. and R. 1 W. are -1. */
typedef struct twpg_position {
    int8_t tier;
    int8_t range;
} twpg_position;

typedef struct twpg_key {
    twpg_position least;
    twpg_position most;
    bool has_empty;
    bool has_several_plats; /* and then the next two are 0 */
    uint32_t date;
    uint32_t own_lots;
    uint64_t sections; /* those that are touched: bit `section - 1` */
    uint16_t cells[TOWNSHIP_SECTIONS];
} twpg_key;

twpg_key twpg_key_of(const struct varlena *land);
bytea *twpg_pack_key(const twpg_key *key);
twpg_key twpg_unpack_key(Datum stored);
bool twpg_is_covered(Datum stored, twpg_position position);

bool twpg_is_single(const twpg_key *key);
bool twpg_keys_on_one_plat(const twpg_key *first, const twpg_key *second);
bool twpg_keys_share(const twpg_key *first, const twpg_key *second);
bool twpg_keys_nested(const twpg_key *outer, const twpg_key *inner);
void twpg_extend(twpg_key *key, const twpg_key *other);
float twpg_growth(const twpg_key *key, const twpg_key *added);
int twpg_compare_keys(const twpg_key *first, const twpg_key *second);

#endif
