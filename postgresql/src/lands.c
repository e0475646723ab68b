/*
 * The function lands(text): the land that a text names in each of its townships, as rows; and why a text is refused.
 */
#include "land.h"

#include "miscadmin.h"
#include "utils/tuplestore.h"

/* The room for the parts of nearly all texts. */
#define USUAL_PARTS 64

/* What came of reading a text: its land in each township, or why it is refused. */
typedef struct twpg_located {
    township_land *lands;
    size_t count;
    /* Where the part begins that is read. */
    uint64_t start;
    township_answer answer;
    twpg_explanation explained;
} twpg_located;

/* Puts why a text is refused. */
static void put_refusal(twpg_located *located, township_answer answer, char *sentence) {
    twpg_explanation explained = {0, 0, sentence, NULL, NULL};

    located->answer = answer;
    located->explained = explained;
}

/* The parts of a text. Returns NULL if it is refused. */
static township_stretch *split(twpg_bytes given, twpg_located *located, size_t *count) {
    township_stretch *parts = palloc(USUAL_PARTS * sizeof *parts);
    township_answer answer = township_split(given.start, given.length, parts, USUAL_PARTS);

    if (answer.verdict == TOWNSHIP_NO_ROOM) {
        parts = palloc_extended((Size)answer.length * sizeof *parts, MCXT_ALLOC_HUGE);
        answer = township_split(given.start, given.length, parts, (size_t)answer.length);
    }
    if (answer.verdict == TOWNSHIP_ACCEPTED) {
        *count = (size_t)answer.length;
        return parts;
    }
    if (answer.verdict != TOWNSHIP_REFUSED) {
        twpg_fail(answer.verdict);
    }
    put_refusal(located, answer,
                answer.number == TOWNSHIP_REFUSAL_SPLIT_TOO_LARGE
                    ? psprintf("the text is longer than %u bytes", answer.at)
                    : pstrdup("the land before this heading has no heading"));
    return NULL;
}

/* Finds the township in the heading of a part. Returns whether it has one. */
static bool find_township(twpg_bytes part, twpg_located *located, township_designation *township) {
    township_answer answer;
    size_t end;

    if (twpg_find_heading(part, township, &end) == TWPG_HEADING) {
        return true;
    }
    answer = township_designation_read(part.start, part.length, township);
    if (answer.verdict == TOWNSHIP_REFUSED && answer.number == TOWNSHIP_REFUSAL_DESIGNATION_AFTER) {
        /* A spelling that no heading has: the library refuses the description. */
        answer = township_designation_read(part.start, answer.at, township);
    }
    if (answer.verdict == TOWNSHIP_REFUSED) {
        put_refusal(located, answer, twpg_no_township(answer.number));
        located->explained.help = psprintf("It is in the part that begins at byte %u of the text.", (unsigned)located->start);
        return false;
    }
    if (answer.verdict != TOWNSHIP_ACCEPTED) {
        twpg_fail(answer.verdict);
    }
    return true;
}

/* Reads the land of a part. Returns whether it is accepted. The sentence of a refusal names the township, and the place
   is in the part. */
static bool read_part(twpg_bytes part, twpg_located *located, township_land *land) {
    township_designation township;
    township_plat plat;
    township_answer answer;

    if (!find_township(part, located, &township)) {
        return false;
    }
    check_stack_depth();
    answer = township_land_read(&township, part.start, part.length, land);
    if (answer.verdict == TOWNSHIP_ACCEPTED) {
        return true;
    }
    if (answer.verdict != TOWNSHIP_REFUSED) {
        twpg_fail(answer.verdict);
    }
    plat = twpg_even_plat(&township);
    located->answer = answer;
    located->explained = twpg_explain_description(&plat, part);
    located->explained.sentence =
        psprintf("%s: %s",
                 twpg_township_text(township.number, township.north_south, township.range, township.east_west),
                 located->explained.sentence);
    return false;
}

/* The land of the same township that was read before, or NULL. */
static township_land *land_before(const twpg_located *located, const township_land *land) {
    size_t index;

    for (index = 0; index < located->count; index++) {
        if (memcmp(&located->lands[index].township, &land->township, sizeof land->township) == 0) {
            return &located->lands[index];
        }
    }
    return NULL;
}

/* Adds the land of a part, which may not share a place with what was before it. Returns whether it doesn't. */
static bool add_land(twpg_located *located, const township_land *land) {
    township_land *before = land_before(located, land);
    township_answer answer = {.verdict = TOWNSHIP_ACCEPTED};
    uint32_t comparison;
    township_land both;

    if (before == NULL) {
        located->lands[located->count++] = *land;
        return true;
    }
    answer = township_land_compare(before, land, &comparison);
    if (answer.verdict == TOWNSHIP_ACCEPTED && comparison != TOWNSHIP_DISJOINT) {
        answer.number = TOWNSHIP_REFUSAL_LAND_OVERLAP;
        answer.at = (uint32_t)located->start;
        put_refusal(located, answer, pstrdup("land of this part was named before"));
        return false;
    }
    if (answer.verdict == TOWNSHIP_ACCEPTED) {
        answer = township_land_combine(before, land, TOWNSHIP_UNION, &both);
    }
    if (answer.verdict != TOWNSHIP_ACCEPTED) {
        twpg_fail(answer.verdict);
    }
    *before = both;
    return true;
}

/* Reads a text. Returns whether it is accepted. */
static bool locate(twpg_bytes given, twpg_located *located) {
    township_stretch *parts;
    township_land land;
    size_t count = 0;
    size_t index;

    memset(located, 0, sizeof *located);
    parts = split(given, located, &count);
    if (parts == NULL) {
        return false;
    }
    located->lands = palloc_extended(count * sizeof *located->lands, MCXT_ALLOC_HUGE);
    for (index = 0; index < count; index++) {
        twpg_bytes part = {given.start + parts[index].start, (size_t)(parts[index].end - parts[index].start)};

        CHECK_FOR_INTERRUPTS();
        located->start = parts[index].start;
        if (!read_part(part, located, &land) || !add_land(located, &land)) {
            return false;
        }
    }
    return true;
}

/* Returns the lands as rows. */
static void put_rows(FunctionCallInfo fcinfo, const twpg_located *located) {
    ReturnSetInfo *result = twpg_begin_rows(fcinfo);
    size_t index;

    for (index = 0; index < located->count; index++) {
        Datum values[] = {twpg_land_datum(&located->lands[index])};
        bool nulls[] = {false};

        tuplestore_putvalues(result->setResult, result->setDesc, values, nulls);
    }
}

/* The land of a text in each of its townships, in the order of the text, or an error. */
PG_FUNCTION_INFO_V1(twpg_lands);
Datum twpg_lands(PG_FUNCTION_ARGS) {
    twpg_located located;

    if (!locate(twpg_bytes_of_text(PG_GETARG_TEXT_PP(0)), &located)) {
        twpg_refuse(located.answer, &located.explained);
    }
    put_rows(fcinfo, &located);
    PG_RETURN_NULL();
}

/* The same, or no rows if the text is refused. */
PG_FUNCTION_INFO_V1(twpg_lands_or_none);
Datum twpg_lands_or_none(PG_FUNCTION_ARGS) {
    twpg_located located;

    if (!locate(twpg_bytes_of_text(PG_GETARG_TEXT_PP(0)), &located)) {
        located.count = 0;
    }
    put_rows(fcinfo, &located);
    PG_RETURN_NULL();
}

/* Why a text is refused, or NULL. */
PG_FUNCTION_INFO_V1(twpg_lands_refusal);
Datum twpg_lands_refusal(PG_FUNCTION_ARGS) {
    twpg_located located;

    if (locate(twpg_bytes_of_text(PG_GETARG_TEXT_PP(0)), &located)) {
        PG_RETURN_NULL();
    }
    return twpg_refusal_datum(fcinfo, located.answer, &located.explained);
}
