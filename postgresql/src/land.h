/*
 * Lands as they are stored: packed, without the sections that they do not touch.
 *
 * The bytes of a packed land, after the header of the database:
 *
 *     0 to 3   the designation, as in the library's structs
 *     4 to 8   the sections that it touches: bit `section - 1`, from the lowest bit of the first byte; bit 36 is
 *              set if the lots of its plat are those of a lot table, and bit 37 if its plat has a date
 *     9 to 12  only with bit 37: the date of the plat's approval, from its most significant byte
 *
 * and then, for each of these sections in order, a level from 0 to 5 and the section's cells. A section of
 * level n is a square of 2^n by 2^n cells, each of which is held as a whole or not at all; its level is the
 * least one for which that is so, and a section that is held as a whole is of level 0 and has no cells. The
 * others have one bit for each cell, by rows from the south and in each from the east, from the lowest bit of
 * the first byte. The standard lots are cells of level 2, so most lands take less than 20 bytes.
 *
 * The same land always has the same bytes. They are the same on all machines, and no version of the server or
 * of the library changes them.
 */
#ifndef TWPG_LAND_H
#define TWPG_LAND_H

#include "twpg.h"

#define TWPG_LEVEL_MOST 5
#define TWPG_LAND_HEAD 9
#define TWPG_DATE_BYTES 4
#define TWPG_CELLS_MOST (TOWNSHIP_PLACES_ACROSS * TOWNSHIP_PLACES_ACROSS / 8)
#define TWPG_LAND_MOST (TWPG_LAND_HEAD + TWPG_DATE_BYTES + TOWNSHIP_SECTIONS * (1 + TWPG_CELLS_MOST))

/* The bytes of a packed land. */
typedef struct twpg_packed {
    const uint8_t *start;
    size_t length;
} twpg_packed;

/* Which plat land is on, or a lot table is of: a township, the date of the plat's approval, which is 0 if it is not
   known, and whether its lots are those of a lot table (1) or the standard ones (0). */
typedef struct twpg_site {
    township_designation township;
    uint32_t date;
    uint32_t own_lots;
} twpg_site;

/* packing.c */
size_t twpg_pack(const township_land *land, uint8_t *bytes);
bool twpg_unpack(twpg_packed packed, township_land *land);
uint64_t twpg_sections_of(twpg_packed packed);
bool twpg_has_head(twpg_packed packed);
twpg_site twpg_site_of_packed(twpg_packed packed);

/* land_ops.c */
bool twpg_share_a_place(const struct varlena *first, const struct varlena *second);

/* land.c: lands as values of the database. */
twpg_packed twpg_packed_of(const struct varlena *stored);
void twpg_land_of(const struct varlena *stored, township_land *land);
Datum twpg_land_datum(const township_land *land);

/* land_plat.c: the plats that land is on, and the errors for those of different ones. */
bool twpg_is_date(uint32_t date);
char *twpg_date_text(uint32_t date);
int32 twpg_date_of(uint32_t date);
twpg_site twpg_site_of(const township_land *land);
twpg_site twpg_site_of_plat(const township_plat *plat);
int twpg_compare_sites(const twpg_site *first, const twpg_site *second);
twpg_explanation twpg_explain_two(uint32_t verdict, const twpg_site *first, const twpg_site *second);
_Noreturn void twpg_fail_of_site(twpg_explanation explained);
_Noreturn void twpg_fail_of_two(uint32_t verdict, const twpg_site *first, const twpg_site *second);
_Noreturn void twpg_fail_of_own_lots(const char *instead);

#define PG_GETARG_LAND(n) PG_DETOAST_DATUM_PACKED(PG_GETARG_DATUM(n))

/* Whether a text begins with a heading that names its township. */
typedef enum twpg_heading {
    TWPG_NO_HEADING,
    TWPG_IMPOSSIBLE_HEADING, /* one with a number that no township has */
    TWPG_HEADING
} twpg_heading;

/* What is wrong with an impossible heading. */
#define TWPG_IMPOSSIBLE_NUMBERS "the numbers of a township and of its range are 1 to 99"

/* grid.c: where the sections and the lots of a township are. */

/* A township is six sections wide and six high, and a section four quarter-quarters. */
#define TWPG_SECTIONS_ACROSS 6
#define TWPG_CELLS_ACROSS 4

/* The room for the parts of nearly all land. */
#define TWPG_USUAL_PARTS 64

/* Where a section is, in sections. */
typedef struct twpg_spot {
    int from_north;
    int from_east;
} twpg_spot;

/* The number of the lot in each quarter-quarter of each section, by rows from the south and in each from the east; or 0
   if it is in no lot. */
typedef struct twpg_lot_numbers {
    uint8_t at[TOWNSHIP_SECTIONS][TWPG_CELLS_ACROSS][TWPG_CELLS_ACROSS];
} twpg_lot_numbers;

/* The numbers of lots are below this one, which says that the plat has no land at a place. */
#define TWPG_NOT_THERE 100

/* A section, by its index, with the number of the lot that each place is in: 0 for none. */
typedef struct twpg_lotted {
    int index;
    uint8_t lots[TOWNSHIP_PLACES_ACROSS][TOWNSHIP_PLACES_ACROSS];
} twpg_lotted;

/* Places of a section, by rows as in land. */
typedef struct twpg_places {
    uint32_t rows[TOWNSHIP_PLACES_ACROSS];
} twpg_places;

twpg_spot twpg_spot_of(int section);
township_part *twpg_parts_of(const township_land *land, size_t *count);
void twpg_find_lots(const township_designation *township, twpg_lot_numbers *lots);
void twpg_find_section(const township_lots *mapped, const twpg_lot_numbers *standard, twpg_lotted *section);
twpg_places twpg_places_of_lot(const twpg_lotted *section, uint8_t lot);
bool twpg_is_touched(const township_land *land, int section);

/* headings.c: headings of descriptions, which name the township. */
twpg_heading twpg_find_heading(twpg_bytes given, township_designation *township, size_t *end);
bool twpg_find_township(const text *given, township_designation *township);
char *twpg_no_township(uint32_t number);
township_designation twpg_township_of(const text *given);

/* What came of reading a text by a lot table, or with the standard lots if that is NULL: the library's answer, and the
   bytes that it is about; or that land in a group of a long text is in an earlier one. */
typedef struct twpg_attempt {
    const township_lots *lots;
    twpg_bytes description;
    township_answer answer;
    bool is_named_twice;
} twpg_attempt;

/* land_reading.c: lands of descriptions. */
township_plat twpg_even_plat(const township_designation *township);
bool twpg_try_description(const township_designation *township, twpg_attempt *attempt, township_land *land);
bool twpg_try_text(const township_designation *township, twpg_attempt *attempt, township_land *land);
twpg_explanation twpg_explain_attempt(const township_designation *township, const twpg_attempt *attempt);
_Noreturn void twpg_refuse_land(const township_designation *township, const twpg_attempt *attempt);

/* The plat that a text of land begins with: how many bytes that is, which are none if it has no plat. If it is not
   valid, what is expected after that many bytes; otherwise NULL. */
typedef struct twpg_prefix {
    size_t length;
    uint32_t date;
    uint32_t own_lots;
    const char *expected;
} twpg_prefix;

/* plat_prefix.c */
twpg_prefix twpg_read_prefix(twpg_bytes given);
char *twpg_prefix_text(const twpg_site *site);

/* land_text.c: the texts of lands. */
char *twpg_land_text(const township_land *land);
char *twpg_describe(const township_land *land, const township_lots *lots);
bool twpg_is_land_text(twpg_bytes given);

/* land_by_lots.c: land on the plat of a lot table. */
twpg_site twpg_site_of_lots(const township_lots *lots);
bool twpg_is_elsewhere(uint32_t verdict, const township_land *land);
twpg_explanation twpg_explain_on_table(uint32_t verdict, const township_lots *lots, const township_land *land);
_Noreturn void twpg_fail_on_table(uint32_t verdict, const township_lots *lots, const township_land *land);
void twpg_check_on_table(const township_lots *lots, const township_land *land);

#endif
