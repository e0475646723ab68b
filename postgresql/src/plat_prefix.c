/*
 * The beginning of the text of land on the plat of a lot table, before the heading:
 *
 *     plat 1912-03-04: T. 2 N., R. 3 W., sec. 5, lot 1.
 *     plat 1912-03-04 with its lots: T. 2 N., R. 3 W., sec. 14, N1/2NW1/4NE1/4.
 *     plat with its lots: T. 2 N., R. 3 W., sec. 14, N1/2NW1/4NE1/4.
 *
 * It is read only as it is written.
 */
#include "land.h"

#include <ctype.h>

#define WORD "plat"
#define WITH_LOTS " with its lots: "
#define END ": "
#define DATE "YYYY-MM-DD"

/* Takes a word that comes next in a text, from a place on. Returns whether it does. */
static bool take(twpg_bytes given, size_t *at, const char *word) {
    size_t length = strlen(word);

    if (given.length - *at < length || memcmp(given.start + *at, word, length) != 0) {
        return false;
    }
    *at += length;
    return true;
}

/* The number that some digits spell. What is not a digit is not looked for here. */
static uint32_t number_in(const uint8_t *digits, int count) {
    uint32_t number = 0;

    while (count-- > 0) {
        number = number * 10 + (uint32_t)(*digits++ - '0');
    }
    return number;
}

/* Takes a date such as 1912-03-04. Returns 0 if there is none. */
static uint32_t take_date(twpg_bytes given, size_t *at) {
    const uint8_t *first = given.start + *at;
    uint32_t date;
    size_t index;

    if (given.length - *at < strlen(DATE)) {
        return 0;
    }
    for (index = 0; index < strlen(DATE); index++) {
        if (DATE[index] == '-' ? first[index] != '-' : !isdigit(first[index])) {
            return 0;
        }
    }
    date = number_in(first, 4) * 10000 + number_in(first + 5, 2) * 100 + number_in(first + 8, 2);
    if (!twpg_is_date(date)) {
        return 0;
    }
    *at += strlen(DATE);
    return date;
}

static twpg_prefix refused(size_t at, const char *expected) {
    twpg_prefix prefix = {at, 0, 0, expected};

    return prefix;
}

/* Reads the plat that a text begins with, if it does. */
twpg_prefix twpg_read_prefix(twpg_bytes given) {
    twpg_prefix prefix = {0, 0, 0, NULL};

    if (!take(given, &prefix.length, WORD)) {
        return prefix;
    }
    if (take(given, &prefix.length, WITH_LOTS)) {
        prefix.own_lots = 1;
        return prefix;
    }
    if (!take(given, &prefix.length, " ")) {
        return refused(prefix.length, "expected ` with its lots: `, or a date, as in ` 1912-03-04`");
    }
    prefix.date = take_date(given, &prefix.length);
    if (prefix.date == 0) {
        return refused(prefix.length, "expected a date, as in `1912-03-04`, or `with its lots: `");
    }
    prefix.own_lots = take(given, &prefix.length, WITH_LOTS);
    if (prefix.own_lots == 0 && !take(given, &prefix.length, END)) {
        return refused(prefix.length, "expected `: ` or ` with its lots: `");
    }
    return prefix;
}

/* The beginning of the text of land on a plat. It is empty if land without it is on that plat. */
char *twpg_prefix_text(const twpg_site *site) {
    char *date = site->date != 0 ? psprintf(" %s", twpg_date_text(site->date)) : pstrdup("");

    if (site->date == 0 && site->own_lots == 0) {
        return date;
    }
    return psprintf("%s%s%s", WORD, date, site->own_lots != 0 ? WITH_LOTS : END);
}
