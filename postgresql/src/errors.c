/*
 * The errors of the database: one for each refusal, and those for the other verdicts.
 */
#include "twpg.h"

/* Each refusal has an SQLSTATE in the class TW: that of refusal 67 is TW067. */
int twpg_sqlstate_of(uint32_t number) {
    char hundreds = (char)('0' + number / 100 % 10);
    char tens = (char)('0' + number / 10 % 10);
    char ones = (char)('0' + number % 10);

    return MAKE_SQLSTATE('T', 'W', hundreds, tens, ones);
}

/* The detail begins on a line of its own, so that the carets are below the text that they mark. */
static char *detail_of(const twpg_explanation *explained) {
    if (explained->excerpt == NULL) {
        return NULL;
    }
    if (explained->column == 0) {
        return psprintf("Line %u:\n%s", explained->line, explained->excerpt);
    }
    return psprintf("Line %u, column %u:\n%s", explained->line, explained->column, explained->excerpt);
}

void twpg_refuse(township_answer answer, const twpg_explanation *explained) {
    const char *detail = detail_of(explained);

    ereport(ERROR, (errcode(twpg_sqlstate_of(answer.number)),
                    errmsg("refused %u at %u: %s", answer.number, answer.at, explained->sentence),
                    detail == NULL ? 0 : errdetail("%s", detail),
                    explained->help == NULL ? 0 : errhint("%s", explained->help)));
}

/* The errors of the verdicts that are no refusals. Values in tables are valid, so all but the first one mean
   that stored data was damaged. */
static const struct {
    uint32_t verdict;
    int sqlstate;
    const char *message;
} failures[] = {
    {TOWNSHIP_NO_MEMORY, ERRCODE_OUT_OF_MEMORY, "out of memory"},
    {TOWNSHIP_NO_PLAT, ERRCODE_DATA_CORRUPTED, "this plat is not valid"},
    {TOWNSHIP_NO_LAND, ERRCODE_DATA_CORRUPTED, "this land is not valid"},
    {TOWNSHIP_NO_LOTS, ERRCODE_DATA_CORRUPTED, "this lot table is not valid"},
};

void twpg_fail(uint32_t verdict) {
    size_t index;

    for (index = 0; index < lengthof(failures); index++) {
        if (failures[index].verdict == verdict) {
            ereport(ERROR, (errcode(failures[index].sqlstate), errmsg("%s", failures[index].message)));
        }
    }
    elog(ERROR, "unexpected verdict %u of the township library", verdict);
}
