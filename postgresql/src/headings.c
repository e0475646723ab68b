/*
 * Headings of descriptions. The library reads a description for a given township, and refuses the heading of
 * another one. So the heading is read here first, to know which township that is. Whatever this reads, the
 * library reads the description again, and decides.
 */
#include "land.h"

#include <ctype.h>

#define NUMBER_MOST 99

/* Where reading has come. */
typedef struct twpg_reader {
    twpg_bytes given;
    size_t at;
} twpg_reader;

static void skip_white(twpg_reader *reader) {
    while (reader->at < reader->given.length && memchr(" \t\n\r", reader->given.start[reader->at], 4) != NULL) {
        reader->at++;
    }
}

/* Takes a character, in lowercase, if it is next. */
static bool take(twpg_reader *reader, char character) {
    skip_white(reader);
    if (reader->at >= reader->given.length || pg_ascii_tolower(reader->given.start[reader->at]) != character) {
        return false;
    }
    reader->at++;
    return true;
}

static void take_if_next(twpg_reader *reader, char character) {
    (void)take(reader, character);
}

/* Takes a number. One that is too large for a township is more than NUMBER_MOST. */
static bool take_number(twpg_reader *reader, unsigned *number) {
    size_t first;

    skip_white(reader);
    first = reader->at;
    *number = 0;
    while (reader->at < reader->given.length && isdigit(reader->given.start[reader->at])) {
        *number = Min(*number * 10 + (reader->given.start[reader->at] - '0'), NUMBER_MOST + 1);
        reader->at++;
    }
    return reader->at > first;
}

/* Takes a side: 0 for the first letter, and 1 for the second one. */
static bool take_side(twpg_reader *reader, char first, char second, uint8_t *side) {
    if (take(reader, first)) {
        *side = 0;
    } else if (take(reader, second)) {
        *side = 1;
    } else {
        return false;
    }
    take_if_next(reader, '.');
    take_if_next(reader, ',');
    return true;
}

/* Takes the letter T or R and the number after it. */
static bool take_letter_and_number(twpg_reader *reader, char letter, unsigned *number) {
    if (!take(reader, letter)) {
        return false;
    }
    take_if_next(reader, '.');
    return take_number(reader, number);
}

static bool is_number_of_township(unsigned number) {
    return number >= 1 && number <= NUMBER_MOST;
}

/* Reads the heading with which a description begins, such as `T. 2 N., R. 3 W.,`, and where it ends. */
twpg_heading twpg_find_heading(twpg_bytes given, township_designation *township, size_t *end) {
    twpg_reader reader = {given, 0};
    unsigned number;
    unsigned range;

    if (!take_letter_and_number(&reader, 't', &number) ||
        !take_side(&reader, 'n', 's', &township->north_south) ||
        !take_letter_and_number(&reader, 'r', &range) || !take_side(&reader, 'e', 'w', &township->east_west)) {
        return TWPG_NO_HEADING;
    }
    if (!is_number_of_township(number) || !is_number_of_township(range)) {
        return TWPG_IMPOSSIBLE_HEADING;
    }
    township->number = (uint8_t)number;
    township->range = (uint8_t)range;
    skip_white(&reader);
    *end = reader.at;
    return TWPG_HEADING;
}

/* Finds the township that a text spells. Returns whether there is one. */
bool twpg_find_township(const text *given, township_designation *township) {
    twpg_bytes bytes = twpg_bytes_of_text(given);

    return township_designation_read(bytes.start, bytes.length, township).verdict == TOWNSHIP_ACCEPTED;
}

/* What is expected at the place of a refusal, by its number. */
static const char *const expected_there[] = {
    "expected the township number, 1 to 99", "expected N or S", "expected the range, as in R. 3 W.", "expected E or W",
    "expected nothing after the township", "the text exceeds 65,536 bytes",
};

/* What is wrong with a text that spells no township, by the number of its refusal. */
char *twpg_no_township(uint32_t number) {
    uint32_t index = number - TOWNSHIP_REFUSAL_DESIGNATION_NUMBER;

    return index < lengthof(expected_there) ? psprintf("this isn't a township: %s", expected_there[index])
                                            : pstrdup("this isn't a township");
}

/* The same, but a text that spells none is an error. */
township_designation twpg_township_of(const text *given) {
    twpg_bytes bytes = twpg_bytes_of_text(given);
    township_designation township;
    township_answer answer = township_designation_read(bytes.start, bytes.length, &township);
    twpg_explanation explained = {0, 0, NULL, NULL, "Write it as in T. 2 N., R. 3 W."};

    if (answer.verdict == TOWNSHIP_REFUSED) {
        explained.sentence = twpg_no_township(answer.number);
        twpg_refuse(answer, &explained);
    }
    if (answer.verdict != TOWNSHIP_ACCEPTED) {
        twpg_fail(answer.verdict);
    }
    return township;
}

static Datum designation_datum(const township_designation *township) {
    PG_RETURN_TEXT_P(cstring_to_text(twpg_township_text(township->number, township->north_south, township->range,
                                                        township->east_west)));
}

/* The designation of the township that a text spells. */
PG_FUNCTION_INFO_V1(twpg_designation);
Datum twpg_designation(PG_FUNCTION_ARGS) {
    township_designation township = twpg_township_of(PG_GETARG_TEXT_PP(0));

    return designation_datum(&township);
}

/* The same, or NULL if it spells none. */
PG_FUNCTION_INFO_V1(twpg_designation_or_null);
Datum twpg_designation_or_null(PG_FUNCTION_ARGS) {
    township_designation township;

    if (!twpg_find_township(PG_GETARG_TEXT_PP(0), &township)) {
        PG_RETURN_NULL();
    }
    return designation_datum(&township);
}
