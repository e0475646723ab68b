/*
 * Figures as numbers and records of the database, and the accounts that they are by.
 */
#include "twpg.h"

#include "access/htup_details.h"
#include "catalog/pg_type.h"

/* The unit of area is a square thousandth of a chain. */
#define UNITS_IN_ACRE 10000000u

/* The most digits of a 128-bit number. */
#define DIGITS_MOST 39

typedef unsigned __int128 twpg_wide;

Datum twpg_acres_datum(uint64_t hundredths) {
    return twpg_numeric_of_hundredths((int64)hundredths);
}

static twpg_wide greatest_common_divisor(twpg_wide a, twpg_wide b) {
    while (b != 0) {
        twpg_wide rest = a % b;

        a = b;
        b = rest;
    }
    return a;
}

/* The database has no function that makes a numeric of 128 bits, so those of more than 63 go through their
   digits. */
static Datum numeric_of(twpg_wide number) {
    char digits[DIGITS_MOST + 1];
    char *first = digits + DIGITS_MOST;

    if (number <= (twpg_wide)PG_INT64_MAX) {
        return twpg_numeric_of((int64)number);
    }
    *first = '\0';
    for (; number > 0; number /= 10) {
        *--first = (char)('0' + (int)(number % 10));
    }
    return twpg_numeric_of_digits(first);
}

/* The description of the record that a function returns, which is looked up once in a query. */
static TupleDesc record_of(FunctionCallInfo fcinfo) {
    if (fcinfo->flinfo->fn_extra == NULL) {
        MemoryContext before = MemoryContextSwitchTo(fcinfo->flinfo->fn_mcxt);
        TupleDesc record;

        if (get_call_result_type(fcinfo, NULL, &record) != TYPEFUNC_COMPOSITE) {
            elog(ERROR, "the function does not return a record");
        }
        fcinfo->flinfo->fn_extra = BlessTupleDesc(record);
        MemoryContextSwitchTo(before);
    }
    return fcinfo->flinfo->fn_extra;
}

Datum twpg_record_datum(FunctionCallInfo fcinfo, Datum *values, bool *nulls) {
    return HeapTupleGetDatum(heap_form_tuple(record_of(fcinfo), values, nulls));
}

/* The exact area in acres, as a fraction in lowest terms. */
Datum twpg_area_datum(FunctionCallInfo fcinfo, const township_fraction *area) {
    twpg_wide units = (twpg_wide)area->units_high << 64 | area->units_low;
    twpg_wide over = (twpg_wide)area->over * UNITS_IN_ACRE;
    twpg_wide common = greatest_common_divisor(over, units);
    Datum values[] = {numeric_of(units / common), numeric_of(over / common)};
    bool nulls[] = {false, false};

    return twpg_record_datum(fcinfo, values, nulls);
}

static bool is_word(const text *given, const char *word) {
    return VARSIZE_ANY_EXHDR(given) == strlen(word) && memcmp(VARDATA_ANY(given), word, strlen(word)) == 0;
}

uint32_t twpg_account_of(const text *given) {
    if (is_word(given, "exact")) {
        return TOWNSHIP_EXACT;
    }
    if (!is_word(given, "plat")) {
        ereport(ERROR, (errcode(ERRCODE_INVALID_PARAMETER_VALUE),
                        errmsg("no account \"%s\"", text_to_cstring(given)),
                        errhint("The accounts are 'exact' and 'plat'.")));
    }
    return TOWNSHIP_BY_PLAT;
}
