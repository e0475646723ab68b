/*
 * The library's explanations. Each is a text, as the program shows it, and its parts as data:
 *
 *     township: d:1:20: this land was named before
 *       1 | sec. 14, NE1/4 and N1/2.
 *         |                    ^^^^
 *       `NE1/4` at 1:10 overlaps it; both include sec. 14, NE1/4.
 *
 * The database shows the sentence, the excerpt, and the hints in places of their own, and breaks no lines.
 */
#include "lots.h"

#include "lib/stringinfo.h"

/* The name that the library gives to the text that it explains. It is as short as can be, since nobody sees
   it. */
static const uint8_t NAME[] = {'d'};

/* Every line of a sentence continues the one before. */
#define ALL_LINES UINT32_MAX

/* Field notes, a lot table, or a description or a list with the plat that it is on, or with a lot table of that plat; or
   a lot table and the place of a lot that it lacks; and the parts of the explanation, which the library writes. */
typedef struct twpg_explaining {
    const township_plat *plat;
    const township_lots *lots;
    uint32_t at;
    twpg_bytes given;
    township_explanation *parts;
} twpg_explaining;

static township_answer write_of_description(const void *given, uint8_t *text, size_t room) {
    const twpg_explaining *it = given;

    return township_explain_description_parts(it->plat, it->given.start, it->given.length, NAME, sizeof NAME, text,
                                              room, it->parts);
}

static township_answer write_by_lots(const void *given, uint8_t *text, size_t room) {
    const twpg_explaining *it = given;

    return township_lots_explain_description_parts(it->lots, it->given.start, it->given.length, NAME, sizeof NAME, text,
                                                   room, it->parts);
}

static township_answer write_of_notes(const void *given, uint8_t *text, size_t room) {
    const twpg_explaining *it = given;

    return township_explain_notes_parts(it->given.start, it->given.length, NAME, sizeof NAME, text, room, it->parts);
}

static township_answer write_of_lots(const void *given, uint8_t *text, size_t room) {
    const twpg_explaining *it = given;

    return township_explain_lots_parts(it->given.start, it->given.length, NAME, sizeof NAME, text, room, it->parts);
}

static township_answer write_of_list(const void *given, uint8_t *text, size_t room) {
    const twpg_explaining *it = given;

    return it->lots != NULL
               ? township_lots_explain_list_parts(it->lots, it->given.start, it->given.length, NAME, sizeof NAME, text,
                                                  room, it->parts)
               : township_explain_list_parts(it->plat, it->given.start, it->given.length, NAME, sizeof NAME, text, room,
                                             it->parts);
}

static township_answer write_of_lacking(const void *given, uint8_t *text, size_t room) {
    const twpg_explaining *it = given;

    return township_explain_lacking_parts(it->lots, it->at, NAME, sizeof NAME, text, room, it->parts);
}

/* The lines of a part, without their indentation. A line continues the one before if its bit is set: then they are one
   line here. */
static char *joined(const char *text, uint64_t start, uint64_t length, uint32_t continued) {
    const char *at = text + start;
    const char *end = at + length;
    StringInfoData lines;
    int line;

    initStringInfo(&lines);
    for (line = 0; at < end; line++) {
        const char *feed = memchr(at, '\n', (size_t)(end - at));
        const char *line_end = feed == NULL ? end : feed;

        if (line > 0) {
            appendStringInfoChar(&lines, (continued >> line & 1) != 0 ? ' ' : '\n');
        }
        at += strspn(at, " ");
        appendBinaryStringInfo(&lines, at, (int)(line_end - at));
        at = line_end + 1;
    }
    return twpg_from_utf8(lines.data);
}

/* The lines of an excerpt as they are, without the last line feed. */
static char *excerpt_of(const char *text, const township_explanation *parts) {
    return twpg_text_in(text, parts->excerpt, parts->excerpt_length - 1);
}

/* The explanation that a writer writes. Want of memory is an error, and any other verdict has no text. */
static twpg_explanation explanation_by(twpg_writer writer, twpg_explaining explaining) {
    township_explanation parts = {0};
    twpg_explanation explained = {0};
    township_answer answer;
    char *text;

    explaining.parts = &parts;
    answer = twpg_write(writer, &explaining, &text);
    if (answer.verdict != TOWNSHIP_ACCEPTED && answer.verdict != TOWNSHIP_REFUSED) {
        twpg_fail(answer.verdict);
    }
    explained.line = answer.line;
    explained.column = answer.column;
    explained.sentence = joined(text, parts.sentence, parts.sentence_length, ALL_LINES);
    if (parts.excerpt_length > 0) {
        explained.excerpt = excerpt_of(text, &parts);
    }
    if (parts.hints_length > 0) {
        explained.help = joined(text, parts.hints, parts.hints_length, parts.continued);
    }
    return explained;
}

twpg_explanation twpg_explain_description(const township_plat *plat, twpg_bytes description) {
    return explanation_by(write_of_description, (twpg_explaining){.plat = plat, .given = description});
}

twpg_explanation twpg_explain_by_lots(const township_lots *lots, twpg_bytes description) {
    return explanation_by(write_by_lots, (twpg_explaining){.lots = lots, .given = description});
}

twpg_explanation twpg_explain_notes(twpg_bytes notes) {
    return explanation_by(write_of_notes, (twpg_explaining){.given = notes});
}

twpg_explanation twpg_explain_lots(twpg_bytes table) {
    return explanation_by(write_of_lots, (twpg_explaining){.given = table});
}

/* A list with one tract too many. Of a list that is refused for this as a whole, the library may explain the fault of a
   tract instead. */
static twpg_explanation too_many_tracts(uint32_t record) {
    twpg_explanation explained = {0};

    explained.sentence = psprintf("there are more than 1,000 tracts: record %u is one too many", record);
    explained.help = pstrdup("split the list in two");
    return explained;
}

twpg_explanation twpg_explain_list(const township_plat *plat, const township_lots *lots, twpg_bytes list,
                                   township_answer refused) {
    return refused.number == TOWNSHIP_REFUSAL_TOO_MANY_TRACTS
               ? too_many_tracts(refused.at)
               : explanation_by(write_of_list, (twpg_explaining){.plat = plat, .lots = lots, .given = list});
}

twpg_explanation twpg_explain_lacking(const township_lots *lots, uint32_t at) {
    return explanation_by(write_of_lacking, (twpg_explaining){.lots = lots, .at = at});
}
