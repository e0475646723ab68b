/*
 * The type plat: the library's plain data, 340 bytes. It is made from field notes, and keeps the length of the closing
 * quarter mile of each line, which is all that areas depend on. So its text is notes with these closing quarters, after
 * a line that says that nobody measured their lengths. Its binary form is a version, the designation, and the closing
 * quarters in network order, so that it is the same on all machines.
 */
#include "twpg.h"

#include "common/hashfn.h"
#include "libpq/pqformat.h"
#include "miscadmin.h"

#define BINARY_VERSION 1

/* The first line of a plat's text. Field notes don't begin so, and no reader of notes accepts it. */
#define FIRST_LINE "closing quarters of a plat, not measured lengths\n"

StaticAssertDecl(sizeof(township_plat) == 340, "the size of the type plat, which its table of types says");

/* The notes in a text: all of it, or what is after the first line of a plat's text. */
static const char *notes_in(const char *given) {
    size_t length = strlen(FIRST_LINE);

    return strncmp(given, FIRST_LINE, length) == 0 ? given + length : given;
}

PG_FUNCTION_INFO_V1(twpg_plat_in);
Datum twpg_plat_in(PG_FUNCTION_ARGS) {
    const char *given = notes_in(PG_GETARG_CSTRING(0));
    twpg_bytes notes = twpg_bytes_of(given, strlen(given));
    township_plat *plat = palloc0(sizeof *plat);
    township_answer answer;

    check_stack_depth();
    answer = township_read(notes.start, notes.length, plat);
    if (answer.verdict == TOWNSHIP_REFUSED) {
        twpg_explanation explained = twpg_explain_notes(notes);

        twpg_refuse(answer, &explained);
    }
    if (answer.verdict != TOWNSHIP_ACCEPTED) {
        twpg_fail(answer.verdict);
    }
    PG_RETURN_POINTER(plat);
}

static township_answer write_notes(const void *given, uint8_t *text, size_t room) {
    return township_write_notes(given, text, room);
}

PG_FUNCTION_INFO_V1(twpg_plat_out);
Datum twpg_plat_out(PG_FUNCTION_ARGS) {
    char *notes;
    township_answer answer;

    check_stack_depth();
    answer = twpg_write(write_notes, PG_GETARG_PLAT(0), &notes);
    if (answer.verdict != TOWNSHIP_ACCEPTED) {
        twpg_fail(answer.verdict);
    }
    PG_RETURN_CSTRING(psprintf("%s%s", FIRST_LINE, notes));
}

PG_FUNCTION_INFO_V1(twpg_plat_send);
Datum twpg_plat_send(PG_FUNCTION_ARGS) {
    const township_plat *plat = PG_GETARG_PLAT(0);
    StringInfoData sent;
    int line;

    pq_begintypsend(&sent);
    pq_sendbyte(&sent, BINARY_VERSION);
    pq_sendbyte(&sent, plat->number);
    pq_sendbyte(&sent, plat->north_south);
    pq_sendbyte(&sent, plat->range);
    pq_sendbyte(&sent, plat->east_west);
    for (line = 0; line < TOWNSHIP_LINES; line++) {
        pq_sendint32(&sent, plat->closing_quarters[line]);
    }
    PG_RETURN_BYTEA_P(pq_endtypsend(&sent));
}

/* Refuses what is no plat. Only the library can say so; any of its calls does. */
static void check_received(const township_plat *plat) {
    township_plat_figures figures;

    check_stack_depth();
    if (township_figures(plat, &figures).verdict != TOWNSHIP_ACCEPTED) {
        ereport(ERROR, (errcode(ERRCODE_INVALID_BINARY_REPRESENTATION), errmsg("these bytes are no plat")));
    }
}

PG_FUNCTION_INFO_V1(twpg_plat_recv);
Datum twpg_plat_recv(PG_FUNCTION_ARGS) {
    StringInfo received = (StringInfo)PG_GETARG_POINTER(0);
    township_plat *plat = palloc0(sizeof *plat);
    int version = pq_getmsgbyte(received);
    int line;

    if (version != BINARY_VERSION) {
        ereport(ERROR, (errcode(ERRCODE_INVALID_BINARY_REPRESENTATION),
                        errmsg("unknown version %d of the binary form of a plat", version)));
    }
    plat->number = (uint8_t)pq_getmsgbyte(received);
    plat->north_south = (uint8_t)pq_getmsgbyte(received);
    plat->range = (uint8_t)pq_getmsgbyte(received);
    plat->east_west = (uint8_t)pq_getmsgbyte(received);
    for (line = 0; line < TOWNSHIP_LINES; line++) {
        plat->closing_quarters[line] = pq_getmsgint(received, 4);
    }
    check_received(plat);
    PG_RETURN_POINTER(plat);
}

PG_FUNCTION_INFO_V1(twpg_plat_township);
Datum twpg_plat_township(PG_FUNCTION_ARGS) {
    const township_plat *plat = PG_GETARG_PLAT(0);

    PG_RETURN_TEXT_P(
        cstring_to_text(twpg_township_text(plat->number, plat->north_south, plat->range, plat->east_west)));
}

/* Orders plats by their townships, and those of one township by their first different closing quarters. */
static int compare(FunctionCallInfo fcinfo) {
    const township_plat *first = PG_GETARG_PLAT(0);
    const township_plat *second = PG_GETARG_PLAT(1);
    int order = twpg_compare_townships(&first->number, &second->number);
    int line;

    for (line = 0; order == 0 && line < TOWNSHIP_LINES; line++) {
        uint32_t one = first->closing_quarters[line];
        uint32_t other = second->closing_quarters[line];

        order = (one > other) - (one < other);
    }
    return order;
}

TWPG_COMPARISONS(twpg_plat)

PG_FUNCTION_INFO_V1(twpg_plat_hash);
Datum twpg_plat_hash(PG_FUNCTION_ARGS) {
    return hash_any((const unsigned char *)PG_GETARG_PLAT(0), sizeof(township_plat));
}

PG_FUNCTION_INFO_V1(twpg_plat_hash_extended);
Datum twpg_plat_hash_extended(PG_FUNCTION_ARGS) {
    return hash_any_extended((const unsigned char *)PG_GETARG_PLAT(0), sizeof(township_plat),
                             (uint64)PG_GETARG_INT64(1));
}
