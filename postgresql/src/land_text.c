/*
 * Lands as text: any description with a heading is read, and the canonical one is written, on one line. Land on the
 * plat of a lot table begins with that plat (plat_prefix.c). If its lots are those of the table, it is written and read
 * in aliquot parts alone, as if the plat had no lots: only the table knows them. A land without any places, which no
 * description names, is written as its heading and the words `no land`.
 */
#include "land.h"
#include "lots.h"

#include "miscadmin.h"

/* A text of land: its plat, the township of its heading, and what the library reads, which has spaces in place of the
   plat, so that its places are those of the text. */
typedef struct twpg_headed {
    twpg_prefix prefix;
    twpg_heading heading;
    township_designation township;
    size_t end; /* of the heading */
    twpg_bytes description;
} twpg_headed;

/* The bytes of a text with spaces in place of its beginning. */
static twpg_bytes without(twpg_bytes given, size_t length) {
    uint8_t *bytes;

    if (length == 0) {
        return given;
    }
    bytes = palloc_extended(given.length + 1, MCXT_ALLOC_HUGE);
    memset(bytes, ' ', length);
    memcpy(bytes + length, given.start + length, given.length - length);
    return (twpg_bytes){bytes, given.length};
}

static twpg_headed headed_of(twpg_bytes given) {
    twpg_headed headed;

    memset(&headed, 0, sizeof headed);
    headed.prefix = twpg_read_prefix(given);
    headed.description = without(given, headed.prefix.length);
    if (headed.prefix.expected == NULL) {
        headed.heading = twpg_find_heading(headed.description, &headed.township, &headed.end);
    }
    return headed;
}

/* A lot table for a plat without any lots. By it, land is written and read in aliquot parts alone. */
static const township_lots *table_without_lots(const township_designation *township, uint32_t date) {
    township_lots *lots = palloc0(sizeof *lots);

    lots->mapped = 1;
    lots->date = date;
    lots->township = *township;
    return lots;
}

static twpg_attempt attempt_of(const twpg_headed *headed) {
    twpg_attempt attempt = {.description = headed->description};

    if (headed->prefix.own_lots != 0) {
        attempt.lots = table_without_lots(&headed->township, headed->prefix.date);
    }
    return attempt;
}

/* Whether the rest of a text, after its heading, says that there is no land. */
static bool is_no_land(const twpg_headed *headed) {
    static const char *words[] = {"no land", "no land."};
    const char *start = (const char *)headed->description.start + headed->end;
    size_t length = headed->description.length - headed->end;
    int index;

    while (length > 0 && memchr(" \t\n\r", start[length - 1], 4) != NULL) {
        length--;
    }
    for (index = 0; index < (int)lengthof(words); index++) {
        if (length == strlen(words[index]) && pg_strncasecmp(start, words[index], length) == 0) {
            return true;
        }
    }
    return false;
}

/* Reads the land of a text with a heading. Returns whether it is accepted. */
static bool try_headed(const twpg_headed *headed, twpg_attempt *attempt, township_land *land) {
    memset(land, 0, sizeof *land);
    land->township = headed->township;
    if (!is_no_land(headed) && !twpg_try_text(&headed->township, attempt, land)) {
        return false;
    }
    land->date = headed->prefix.date;
    land->own_lots = headed->prefix.own_lots;
    return true;
}

/* The error of a text whose plat or heading is not valid. */
static void check_heading(const twpg_headed *headed) {
    if (headed->prefix.expected != NULL) {
        ereport(ERROR, (errcode(ERRCODE_INVALID_TEXT_REPRESENTATION),
                        errmsg("the plat of this land is not valid at %zu: %s", headed->prefix.length,
                               headed->prefix.expected),
                        errhint("Before the heading, write the plat as in `plat 1912-03-04: `, "
                                "`plat 1912-03-04 with its lots: `, or `plat with its lots: `.")));
    }
    if (headed->heading == TWPG_IMPOSSIBLE_HEADING) {
        ereport(ERROR, (errcode(ERRCODE_INVALID_TEXT_REPRESENTATION), errmsg(TWPG_IMPOSSIBLE_NUMBERS)));
    }
    if (headed->heading == TWPG_NO_HEADING) {
        ereport(ERROR, (errcode(ERRCODE_INVALID_TEXT_REPRESENTATION),
                        errmsg("this description has no heading that names its township"),
                        errhint("Begin with a heading, as in T. 2 N., R. 3 W., sec. 14.")));
    }
}

/* Puts the plat that a text begins with into the first line of an excerpt of its beginning, in place of the spaces that
   the library read. */
static void show_prefix(twpg_explanation *explained, twpg_bytes given, const twpg_prefix *prefix) {
    char *line = explained->excerpt == NULL ? NULL : strstr(explained->excerpt, "1 | ");

    if (line != NULL && explained->line == 1 && strspn(line + strlen("1 | "), " ") >= prefix->length) {
        memcpy(line + strlen("1 | "), given.start, prefix->length);
    }
}

/* Why a text with a heading is refused. A lot of a plat with lots of its own is refused like any that there isn't. */
static twpg_explanation explain(const twpg_headed *headed, const twpg_attempt *attempt, twpg_bytes given) {
    twpg_explanation explained = twpg_explain_attempt(&headed->township, attempt);

    if (attempt->description.start == headed->description.start) {
        show_prefix(&explained, given, &headed->prefix);
    }
    if (attempt->lots != NULL && attempt->answer.number == TOWNSHIP_REFUSAL_LAND_NO_LOT) {
        explained.sentence = pstrdup("only its lot table knows the lots of this plat");
        explained.help = pstrdup("Write aliquot parts, or read the description by the table: land(lots, description).");
    }
    return explained;
}

PG_FUNCTION_INFO_V1(twpg_land_in);
Datum twpg_land_in(PG_FUNCTION_ARGS) {
    const char *text = PG_GETARG_CSTRING(0);
    twpg_bytes given = twpg_bytes_of(text, strlen(text));
    twpg_headed headed = headed_of(given);
    twpg_attempt attempt;
    township_land land;

    check_heading(&headed);
    attempt = attempt_of(&headed);
    if (try_headed(&headed, &attempt, &land)) {
        return twpg_land_datum(&land);
    }
    if (attempt.answer.verdict == TOWNSHIP_REFUSED) {
        twpg_explanation explained = explain(&headed, &attempt, given);

        twpg_refuse(attempt.answer, &explained);
    }
    twpg_refuse_land(&headed.township, &attempt);
}

/* The land of a text with a heading of its own, or NULL if it has none or is refused. */
PG_FUNCTION_INFO_V1(twpg_land_of_text_or_null);
Datum twpg_land_of_text_or_null(PG_FUNCTION_ARGS) {
    twpg_headed headed = headed_of(twpg_bytes_of_text(PG_GETARG_TEXT_PP(0)));
    twpg_attempt attempt;
    township_land land;

    if (headed.prefix.expected != NULL || headed.heading != TWPG_HEADING) {
        PG_RETURN_NULL();
    }
    attempt = attempt_of(&headed);
    if (try_headed(&headed, &attempt, &land)) {
        return twpg_land_datum(&land);
    }
    if (attempt.is_named_twice || attempt.answer.verdict == TOWNSHIP_REFUSED) {
        PG_RETURN_NULL();
    }
    twpg_fail(attempt.answer.verdict);
}

/* Land, and the table by which it is written, or NULL for one with the standard lots. */
typedef struct twpg_written {
    const township_land *land;
    const township_lots *lots;
} twpg_written;

static township_answer write_land(const void *given, uint8_t *text, size_t room) {
    const twpg_written *it = given;

    return it->lots == NULL ? township_land_text(it->land, text, room)
                            : township_lots_land_text(it->lots, it->land, text, room);
}

/* The canonical description of land by a table, or by the standard lots if that is NULL, with its heading, on one
   line. */
char *twpg_describe(const township_land *land, const township_lots *lots) {
    const township_designation *at = &land->township;
    twpg_written written = {land, lots};
    township_answer answer;
    char *text;

    check_stack_depth();
    answer = twpg_write(write_land, &written, &text);
    if (answer.verdict != TOWNSHIP_ACCEPTED && lots != NULL) {
        twpg_fail_on_table(answer.verdict, lots, land);
    }
    if (answer.verdict != TOWNSHIP_ACCEPTED) {
        twpg_fail(answer.verdict);
    }
    if (text[0] == '\0') {
        text = psprintf("%s, no land.", twpg_township_text(at->number, at->north_south, at->range, at->east_west));
    }
    return twpg_one_line(text);
}

/* The text of land: its plat, if that is one of a lot table, and its description. */
char *twpg_land_text(const township_land *land) {
    twpg_site site = twpg_site_of(land);
    char *prefix = twpg_prefix_text(&site);
    char *text = twpg_describe(land, land->own_lots != 0 ? table_without_lots(&land->township, land->date) : NULL);

    return prefix[0] == '\0' ? text : psprintf("%s%s", prefix, text);
}

PG_FUNCTION_INFO_V1(twpg_land_out);
Datum twpg_land_out(PG_FUNCTION_ARGS) {
    township_land land;

    twpg_land_of(PG_GETARG_LAND(0), &land);
    PG_RETURN_CSTRING(twpg_land_text(&land));
}

/* The record of a refusal that is not the library's. */
static Datum refusal_at(FunctionCallInfo fcinfo, uint32_t number, size_t at, const char *sentence) {
    township_answer answer = {.verdict = TOWNSHIP_REFUSED, .number = number, .at = (uint32_t)at};
    twpg_explanation explained = {0, 0, pstrdup(sentence), NULL, NULL};

    return twpg_refusal_datum(fcinfo, answer, &explained);
}

/* Why the land of a text with a heading is refused, or NULL. */
static Datum refusal_of_headed(FunctionCallInfo fcinfo, const twpg_headed *headed, twpg_bytes given) {
    twpg_attempt attempt = attempt_of(headed);
    twpg_explanation explained;
    township_land land;

    if (is_no_land(headed) || twpg_try_description(&headed->township, &attempt, &land)) {
        PG_RETURN_NULL();
    }
    if (attempt.answer.verdict != TOWNSHIP_REFUSED) {
        twpg_fail(attempt.answer.verdict);
    }
    explained = explain(headed, &attempt, given);
    return twpg_refusal_datum(fcinfo, attempt.answer, &explained);
}

/* Why a text is refused, or NULL: a description with a heading of its own, or else field notes. */
PG_FUNCTION_INFO_V1(twpg_refusal_of_text);
Datum twpg_refusal_of_text(PG_FUNCTION_ARGS) {
    twpg_bytes given = twpg_bytes_of_text(PG_GETARG_TEXT_PP(0));
    twpg_headed headed = headed_of(given);

    if (headed.prefix.expected != NULL) {
        return refusal_at(fcinfo, TOWNSHIP_REFUSAL_TEXT_SYNTAX, headed.prefix.length, headed.prefix.expected);
    }
    if (headed.heading == TWPG_IMPOSSIBLE_HEADING) {
        return refusal_at(fcinfo, TOWNSHIP_REFUSAL_LAND_OTHER_TOWNSHIP, headed.prefix.length, TWPG_IMPOSSIBLE_NUMBERS);
    }
    if (headed.heading == TWPG_NO_HEADING && headed.prefix.length > 0) {
        return refusal_at(fcinfo, TOWNSHIP_REFUSAL_TEXT_SYNTAX, headed.prefix.length, "expected a heading");
    }
    if (headed.heading == TWPG_NO_HEADING) {
        return twpg_refusal_of_notes(fcinfo);
    }
    return refusal_of_headed(fcinfo, &headed, given);
}

/* Whether a text is meant as that of land: it begins with a plat or with a heading. */
bool twpg_is_land_text(twpg_bytes given) {
    twpg_headed headed = headed_of(given);

    return headed.prefix.length > 0 || headed.heading != TWPG_NO_HEADING;
}
