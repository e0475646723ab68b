/*
 * Lot tables as they are stored: packed, without the lots that they lack and the sections that are regular.
 *
 * The bytes of a packed lot table, after the header of the database, with numbers from their most significant byte:
 *
 *     0 to 3    the designation, as in the library's structs
 *     4 to 7    the date of the plat's approval, or 0 if it is not known
 *     8         1 if the table says where its lots lie, 0 if they are the standard lots
 *     9 to 10   how many lots follow
 *
 * and then 5 bytes for each of these lots, by section and number: its section, its number, and its figure in 3 bytes.
 * If the table says where its lots lie, the following bytes come after them:
 *
 *     5 bytes   the sections with lots, or with land that is not there: bit `section - 1`, from the lowest bit of the
 *               first byte
 *     16 bytes  for each of these sections: its `positions`, as in the library's struct
 *     64 bytes  for each quarter-quarter that is divided: its part of `divided`
 *
 * The same table always has the same bytes. They are the same on all machines, and no version of the server or of the
 * library changes them.
 */
#ifndef TWPG_LOTS_H
#define TWPG_LOTS_H

#include "twpg.h"

/* The most bytes of a packed lot table. */
#define TWPG_LOTS_HEAD 11
#define TWPG_LOT_BYTES 5
#define TWPG_LOTS_MOST                                                                                                \
    (TWPG_LOTS_HEAD + TWPG_LOT_BYTES * TOWNSHIP_RETURNED_MOST + 5 + TOWNSHIP_POSITION_BYTES + TOWNSHIP_DIVIDED_BYTES)

/* The library's form of a lot table that is stored. */
#define PG_GETARG_LOTS(n) twpg_lots_of(PG_GETARG_VARLENA_PP(n))

/* lots_packing.c */
size_t twpg_pack_lots(const township_lots *lots, uint8_t *bytes);
bool twpg_unpack_lots(twpg_bytes packed, township_lots *lots);
size_t twpg_divided_in(const township_lots *lots);

/* lots_text.c: a lot table as text (CSV). */
char *twpg_lots_text(const township_lots *lots);

/* lots.c: lot tables as values of the database. */
const township_lots *twpg_lots_of(const struct varlena *stored);

/* explanation.c: why a lot table is refused, why a description is refused on the plat of a lot table, why a list is
   refused as a whole by a lot table or, if that is NULL, on a plat, and which lot of land a lot table lacks. */
twpg_explanation twpg_explain_lots(twpg_bytes table);
twpg_explanation twpg_explain_by_lots(const township_lots *lots, twpg_bytes description);
twpg_explanation twpg_explain_list(const township_plat *plat, const township_lots *lots, twpg_bytes list,
                                   township_answer refused);
twpg_explanation twpg_explain_lacking(const township_lots *lots, uint32_t at);

#endif
