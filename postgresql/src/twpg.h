/*
 * What the files of the extension share. The server loads the extension next to others, so every name that is
 * visible outside its file begins with twpg_.
 *
 * The library answers with verdicts. The functions here turn them into the errors and values of the database.
 * A call of the library allocates nothing that outlives it and never calls back, so an error can't skip
 * anything that it has to free.
 */
#ifndef TWPG_H
#define TWPG_H

#include "postgres.h"

#include "fmgr.h"
#include "funcapi.h"
#include "utils/builtins.h"
#include "utils/numeric.h"

/* Since version 16 of the server, the macros for values of variable length are in a header of their own. */
#if PG_VERSION_NUM >= 160000
#include "varatt.h"
#endif

#include <township.h>

/* An argument that is a plat, which is stored as the library's plain data. */
#define PG_GETARG_PLAT(n) ((const township_plat *)PG_GETARG_POINTER(n))

/* The number of what is in two different townships, or on two plats of one, which is no refusal of a text. The library
   has verdicts for it; the number is greater than those of all refusals. */
#define TWPG_OTHER_SITE 112u

/* A function for SQL that returns a value. */
#define TWPG_RETURNS(name, value)                                                                                     \
    PG_FUNCTION_INFO_V1(name);                                                                                        \
    Datum name(PG_FUNCTION_ARGS) {                                                                                    \
        return value;                                                                                                 \
    }

/* The functions TYPE_cmp, TYPE_eq, and so on, for SQL, over the file's function `compare`. */
#define TWPG_COMPARISONS(type)                                                                                        \
    TWPG_RETURNS(type##_cmp, Int32GetDatum(compare(fcinfo)))                                                          \
    TWPG_RETURNS(type##_eq, BoolGetDatum(compare(fcinfo) == 0))                                                       \
    TWPG_RETURNS(type##_ne, BoolGetDatum(compare(fcinfo) != 0))                                                       \
    TWPG_RETURNS(type##_lt, BoolGetDatum(compare(fcinfo) < 0))                                                        \
    TWPG_RETURNS(type##_le, BoolGetDatum(compare(fcinfo) <= 0))                                                       \
    TWPG_RETURNS(type##_gt, BoolGetDatum(compare(fcinfo) > 0))                                                        \
    TWPG_RETURNS(type##_ge, BoolGetDatum(compare(fcinfo) >= 0))

/* Bytes that the library reads: a description or a table, in UTF-8. */
typedef struct twpg_bytes {
    const uint8_t *start;
    size_t length;
} twpg_bytes;

/* A function that writes a text by a call of the library, and the room for it. */
typedef township_answer (*twpg_writer)(const void *given, uint8_t *text, size_t room);

/* A text of the library that explains a refusal or is a note, in its parts and in the encoding of the
   database. A part that is missing is NULL, except that the sentence is empty. */
typedef struct twpg_explanation {
    uint32_t line; /* counted from 1, or 0 if the fault is not on any line */
    uint32_t column;
    char *sentence; /* on one line */
    char *excerpt;
    char *help;
} twpg_explanation;

/* A description with the plat that it is on, as the library explains it. */
typedef struct twpg_described {
    const township_plat *plat;
    twpg_bytes description;
} twpg_described;

/* texts.c: texts of the database for the library, and texts of the library for the database. */
twpg_bytes twpg_bytes_of(const char *given, size_t length);
twpg_bytes twpg_bytes_of_text(const text *given);
char *twpg_from_utf8(const char *utf8);
char *twpg_text_in(const char *utf8, uint64_t start, uint64_t length);
township_answer twpg_write(twpg_writer writer, const void *given, char **written);
char *twpg_one_line(char *written);

/* explanation.c: the parts of the library's explanations. */
twpg_explanation twpg_explain_description(const township_plat *plat, twpg_bytes description);
twpg_explanation twpg_explain_notes(twpg_bytes notes);

/* errors.c: the errors of the database. */
int twpg_sqlstate_of(uint32_t number);
_Noreturn void twpg_refuse(township_answer answer, const twpg_explanation *explained);
_Noreturn void twpg_fail(uint32_t verdict);

/* refusals.c: refusals as records: of a description on a plat, and of field notes, which are the first argument; and
   notes as records. */
Datum twpg_refusal_datum(FunctionCallInfo fcinfo, township_answer answer, const twpg_explanation *explained);
Datum twpg_note_datum(FunctionCallInfo fcinfo, const twpg_explanation *explained);
Datum twpg_refusal_on(FunctionCallInfo fcinfo, const township_plat *plat, twpg_bytes description);
Datum twpg_refusal_of_notes(PG_FUNCTION_ARGS);

/* figures.c: numbers and records of the database. */
Datum twpg_acres_datum(uint64_t hundredths);
Datum twpg_area_datum(FunctionCallInfo fcinfo, const township_fraction *area);
Datum twpg_record_datum(FunctionCallInfo fcinfo, Datum *values, bool *nulls);
uint32_t twpg_account_of(const text *given);

/* servers.c: what differs between the versions of the server. */
Datum twpg_numeric_of(int64 number);
Datum twpg_numeric_of_hundredths(int64 hundredths);
Datum twpg_numeric_of_digits(const char *digits);
ReturnSetInfo *twpg_begin_rows(FunctionCallInfo fcinfo);

/* designations.c: the designations of townships. */
int twpg_compare_townships(const uint8_t *first, const uint8_t *second);
char *twpg_township_text(uint8_t number, uint8_t north_south, uint8_t range, uint8_t east_west);

#endif
