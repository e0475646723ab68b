/*
 * Lists of tracts (CSV), as rows: the answer to each tract, and the pairs of tracts that overlap; on a plat, or on the
 * plat of a lot table.
 */
#include "lots.h"

#include "miscadmin.h"
#include "utils/tuplestore.h"

/* A list with the plat that it is on, or with a lot table of that plat. */
typedef struct twpg_listed {
    const township_plat *plat;
    const township_lots *lots;
    twpg_bytes list;
} twpg_listed;

/* The list in the second argument. The library needs much of the stack, so there must be some. */
static twpg_bytes list_of(FunctionCallInfo fcinfo) {
    check_stack_depth();
    return twpg_bytes_of_text(PG_GETARG_TEXT_PP(1));
}

/* The error for a list that is refused as a whole, and for any other verdict but ACCEPTED. */
static void check(township_answer answer, const twpg_listed *listed) {
    if (answer.verdict == TOWNSHIP_REFUSED) {
        twpg_explanation explained = twpg_explain_list(listed->plat, listed->lots, listed->list, answer);

        twpg_refuse(answer, &explained);
    }
    if (answer.verdict != TOWNSHIP_ACCEPTED) {
        twpg_fail(answer.verdict);
    }
}

/* A number that is missing if it is 0. */
static void set_number(Datum *value, bool *is_null, uint32_t number) {
    *value = Int32GetDatum((int32)number);
    *is_null = number == 0;
}

/* Adds the row of a tract: its record and name, and its acres or the refusal. */
static void add_tract(ReturnSetInfo *result, int record, const township_tract_answer *tract) {
    const township_answer *answer = &tract->answer;
    bool is_accepted = answer->verdict == TOWNSHIP_ACCEPTED;
    Datum values[6];
    bool nulls[6] = {false};

    if (!is_accepted && answer->verdict != TOWNSHIP_REFUSED && answer->verdict != TOWNSHIP_TRACT_REFUSED) {
        twpg_fail(answer->verdict);
    }
    values[0] = Int32GetDatum(record);
    values[1] = CStringGetTextDatum(tract->name);
    nulls[1] = tract->name_length == 0;
    values[2] = is_accepted ? twpg_acres_datum(answer->hundredths) : (Datum)0;
    nulls[2] = !is_accepted;
    set_number(&values[3], &nulls[3], answer->number);
    set_number(&values[4], &nulls[4], answer->inner_number);
    values[5] = Int32GetDatum((int32)answer->inner_at);
    nulls[5] = answer->inner_number == 0;
    tuplestore_putvalues(result->setResult, result->setDesc, values, nulls);
}

static Datum report_rows(FunctionCallInfo fcinfo, const twpg_listed *listed) {
    township_tract_answer *tracts = palloc(TOWNSHIP_TRACTS_MOST * sizeof *tracts);
    ReturnSetInfo *result = twpg_begin_rows(fcinfo);
    const uint8_t *start = listed->list.start;
    size_t length = listed->list.length;
    township_answer answer = listed->lots != NULL
                                 ? township_lots_report_each(listed->lots, start, length, tracts, TOWNSHIP_TRACTS_MOST)
                                 : township_report_each(listed->plat, start, length, tracts, TOWNSHIP_TRACTS_MOST);
    int index;

    check(answer, listed);
    for (index = 0; index < (int)answer.length; index++) {
        /* Record 1 is the heading. */
        add_tract(result, index + 2, &tracts[index]);
    }
    pfree(tracts);
    PG_RETURN_NULL();
}

PG_FUNCTION_INFO_V1(twpg_report);
Datum twpg_report(PG_FUNCTION_ARGS) {
    twpg_listed listed = {.plat = PG_GETARG_PLAT(0), .list = list_of(fcinfo)};

    return report_rows(fcinfo, &listed);
}

PG_FUNCTION_INFO_V1(twpg_report_by_lots);
Datum twpg_report_by_lots(PG_FUNCTION_ARGS) {
    twpg_listed listed = {.lots = PG_GETARG_LOTS(0), .list = list_of(fcinfo)};

    return report_rows(fcinfo, &listed);
}

/* The overlaps on a plat of field notes, in the form that those by a lot table have: no lot is lacking there. */
static township_answer overlaps_on(const twpg_listed *listed, township_lots_overlap *overlaps, size_t room) {
    township_overlap *found = palloc_extended((Size)room * sizeof *found, MCXT_ALLOC_HUGE);
    township_answer answer = township_overlaps(listed->plat, listed->list.start, listed->list.length, found, room);
    size_t index;

    for (index = 0; answer.verdict == TOWNSHIP_ACCEPTED && index < answer.length; index++) {
        overlaps[index] = (township_lots_overlap){
            .first = found[index].first, .second = found[index].second, .hundredths = found[index].hundredths};
    }
    pfree(found);
    return answer;
}

static township_answer overlaps_in(const twpg_listed *listed, township_lots_overlap *overlaps, size_t room) {
    return listed->lots == NULL
               ? overlaps_on(listed, overlaps, room)
               : township_lots_overlaps(listed->lots, listed->list.start, listed->list.length, overlaps, room);
}

/* Adds the row of two tracts that overlap. By a lot table that lacks a lot of the land in both, there are no acres. */
static void add_overlap(ReturnSetInfo *result, const township_lots_overlap *overlap) {
    Datum values[4];
    bool nulls[4] = {false};

    values[0] = Int32GetDatum((int32)overlap->first);
    values[1] = Int32GetDatum((int32)overlap->second);
    values[2] = overlap->lacking == 0 ? twpg_acres_datum(overlap->hundredths) : (Datum)0;
    nulls[2] = overlap->lacking != 0;
    set_number(&values[3], &nulls[3], overlap->lacking);
    tuplestore_putvalues(result->setResult, result->setDesc, values, nulls);
}

/* The room for the overlaps of nearly all lists. */
#define USUAL_OVERLAPS 64

static Datum overlap_rows(FunctionCallInfo fcinfo, const twpg_listed *listed) {
    township_lots_overlap *overlaps = palloc(USUAL_OVERLAPS * sizeof *overlaps);
    ReturnSetInfo *result = twpg_begin_rows(fcinfo);
    township_answer answer = overlaps_in(listed, overlaps, USUAL_OVERLAPS);
    size_t index;

    if (answer.verdict == TOWNSHIP_NO_ROOM) {
        pfree(overlaps);
        overlaps = palloc_extended((Size)answer.length * sizeof *overlaps, MCXT_ALLOC_HUGE);
        answer = overlaps_in(listed, overlaps, (size_t)answer.length);
    }
    check(answer, listed);
    for (index = 0; index < answer.length; index++) {
        add_overlap(result, &overlaps[index]);
    }
    pfree(overlaps);
    PG_RETURN_NULL();
}

PG_FUNCTION_INFO_V1(twpg_list_overlaps);
Datum twpg_list_overlaps(PG_FUNCTION_ARGS) {
    twpg_listed listed = {.plat = PG_GETARG_PLAT(0), .list = list_of(fcinfo)};

    return overlap_rows(fcinfo, &listed);
}

PG_FUNCTION_INFO_V1(twpg_list_overlaps_by_lots);
Datum twpg_list_overlaps_by_lots(PG_FUNCTION_ARGS) {
    twpg_listed listed = {.lots = PG_GETARG_LOTS(0), .list = list_of(fcinfo)};

    return overlap_rows(fcinfo, &listed);
}
