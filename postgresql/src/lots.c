/*
 * The type lots: lot tables, packed as lots.h says. As text a lot table is CSV. Its binary form is a version, and the
 * packed bytes.
 */
#include "land.h"
#include "lots.h"

#include "common/hashfn.h"
#include "lib/stringinfo.h"
#include "libpq/pqformat.h"
#include "miscadmin.h"
#include "utils/date.h"

/* Version 1 had only the 47 figures of the standard lots. */
#define BINARY_VERSION 2

/* The text of a table in which at most so many quarter-quarters are divided is never too long: it takes at most 46 bytes
   for its first two lines, 16 for each of 1,060 records without their land, 12 for each of 576 quarter-quarters, and 27
   for each of the 64 places of those that are divided. With 24, these are 65,390 bytes. */
#define FEW_DIVIDED 24

static twpg_bytes packed_of(const struct varlena *stored) {
    twpg_bytes packed = {(const uint8_t *)VARDATA_ANY(stored), VARSIZE_ANY_EXHDR(stored)};

    return packed;
}

const township_lots *twpg_lots_of(const struct varlena *stored) {
    township_lots *lots = palloc(sizeof *lots);

    if (!twpg_unpack_lots(packed_of(stored), lots)) {
        twpg_fail(TOWNSHIP_NO_LOTS);
    }
    return lots;
}

static Datum lots_datum(const township_lots *lots) {
    struct varlena *stored = palloc(VARHDRSZ + TWPG_LOTS_MOST);
    size_t length = twpg_pack_lots(lots, (uint8_t *)VARDATA(stored));

    SET_VARSIZE(stored, VARHDRSZ + length);
    return PointerGetDatum(stored);
}

static township_answer write_plain(const void *given, uint8_t *text, size_t room) {
    const twpg_bytes *table = given;

    return township_lots_plain(table->start, table->length, text, room);
}

/* The plain table of a lot table as a spreadsheet saves it. */
static twpg_bytes plain_of(twpg_bytes table) {
    char *plain;
    township_answer answer = twpg_write(write_plain, &table, &plain);

    if (answer.verdict != TOWNSHIP_ACCEPTED) {
        twpg_fail(answer.verdict);
    }
    return (twpg_bytes){(const uint8_t *)plain, (size_t)answer.length};
}

/* Reads a lot table or, if it is refused, its plain table, which then takes its place. */
static township_answer read_lots(twpg_bytes *table, township_lots *lots) {
    township_answer answer = township_lots_read(table->start, table->length, lots);

    if (answer.verdict == TOWNSHIP_REFUSED && answer.number != TOWNSHIP_REFUSAL_LOTS_TOO_LARGE) {
        *table = plain_of(*table);
        answer = township_lots_read(table->start, table->length, lots);
    }
    return answer;
}

/* The error for a lot table that is not accepted. */
static void check(township_answer answer, twpg_bytes table) {
    if (answer.verdict == TOWNSHIP_REFUSED) {
        twpg_explanation explained = twpg_explain_lots(table);

        twpg_refuse(answer, &explained);
    }
    if (answer.verdict != TOWNSHIP_ACCEPTED) {
        twpg_fail(answer.verdict);
    }
}

/* Whether the text of a lot table can be read again: dumps consist of texts. A table whose lots share dozens of
   quarter-quarters in very small parts may have no text that is short enough. */
static bool has_text(const township_lots *lots) {
    return lots->mapped == 0 || twpg_divided_in(lots) <= FEW_DIVIDED ||
           strlen(twpg_lots_text(lots)) <= TOWNSHIP_LOTS_TEXT_MOST;
}

PG_FUNCTION_INFO_V1(twpg_lots_in);
Datum twpg_lots_in(PG_FUNCTION_ARGS) {
    const char *given = PG_GETARG_CSTRING(0);
    twpg_bytes table = twpg_bytes_of(given, strlen(given));
    township_lots *lots = palloc(sizeof *lots);

    check_stack_depth();
    check(read_lots(&table, lots), table);
    if (!has_text(lots)) {
        ereport(ERROR, (errcode(ERRCODE_PROGRAM_LIMIT_EXCEEDED),
                        errmsg("the lots of this table lie in too many small parts: its text would exceed 65,536 bytes")));
    }
    return lots_datum(lots);
}

PG_FUNCTION_INFO_V1(twpg_lots_out);
Datum twpg_lots_out(PG_FUNCTION_ARGS) {
    check_stack_depth();
    PG_RETURN_CSTRING(twpg_lots_text(PG_GETARG_LOTS(0)));
}

PG_FUNCTION_INFO_V1(twpg_lots_send);
Datum twpg_lots_send(PG_FUNCTION_ARGS) {
    twpg_bytes packed = packed_of(PG_GETARG_VARLENA_PP(0));
    StringInfoData sent;

    pq_begintypsend(&sent);
    pq_sendbyte(&sent, BINARY_VERSION);
    pq_sendbytes(&sent, (const char *)packed.start, (int)packed.length);
    PG_RETURN_BYTEA_P(pq_endtypsend(&sent));
}

/* Whether bytes are a packed lot table: its text is one, and has these bytes. Only the library can say so. */
static bool is_packed(twpg_bytes packed, township_lots *lots) {
    uint8_t *again = palloc(TWPG_LOTS_MOST);
    const char *text;
    township_answer answer;

    check_stack_depth();
    if (!twpg_unpack_lots(packed, lots)) {
        return false;
    }
    text = twpg_lots_text(lots);
    answer = township_lots_read((const uint8_t *)text, strlen(text), lots);
    if (answer.verdict != TOWNSHIP_ACCEPTED && answer.verdict != TOWNSHIP_REFUSED) {
        twpg_fail(answer.verdict);
    }
    return answer.verdict == TOWNSHIP_ACCEPTED && twpg_pack_lots(lots, again) == packed.length &&
           memcmp(again, packed.start, packed.length) == 0;
}

PG_FUNCTION_INFO_V1(twpg_lots_recv);
Datum twpg_lots_recv(PG_FUNCTION_ARGS) {
    StringInfo received = (StringInfo)PG_GETARG_POINTER(0);
    township_lots *lots = palloc(sizeof *lots);
    int version = pq_getmsgbyte(received);
    twpg_bytes packed;

    if (version != BINARY_VERSION) {
        ereport(ERROR, (errcode(ERRCODE_INVALID_BINARY_REPRESENTATION),
                        errmsg("unknown version %d of the binary form of a lot table", version)));
    }
    packed.length = (size_t)(received->len - received->cursor);
    packed.start = (const uint8_t *)pq_getmsgbytes(received, (int)packed.length);
    if (!is_packed(packed, lots)) {
        ereport(ERROR, (errcode(ERRCODE_INVALID_BINARY_REPRESENTATION), errmsg("these bytes are no lot table")));
    }
    return lots_datum(lots);
}

PG_FUNCTION_INFO_V1(twpg_lots_township);
Datum twpg_lots_township(PG_FUNCTION_ARGS) {
    const township_designation *at = &PG_GETARG_LOTS(0)->township;

    PG_RETURN_TEXT_P(cstring_to_text(twpg_township_text(at->number, at->north_south, at->range, at->east_west)));
}

/* The date of the plat's approval, or NULL if it is not known. */
PG_FUNCTION_INFO_V1(twpg_lots_plat_date);
Datum twpg_lots_plat_date(PG_FUNCTION_ARGS) {
    uint32_t date = PG_GETARG_LOTS(0)->date;

    if (date == 0) {
        PG_RETURN_NULL();
    }
    PG_RETURN_DATEADT(twpg_date_of(date));
}

/* Whether the table says where its lots lie: if not, they are the standard lots. */
PG_FUNCTION_INFO_V1(twpg_lots_has_own_lots);
Datum twpg_lots_has_own_lots(PG_FUNCTION_ARGS) {
    PG_RETURN_BOOL(PG_GETARG_LOTS(0)->mapped != 0);
}

static int compare_numbers(uint32_t first, uint32_t second) {
    return (first > second) - (first < second);
}

/* Orders lot tables by their townships, those of one township by their dates, and then by whether they say where their
   lots lie, by their first different figures, and by their lots. */
static int compare(FunctionCallInfo fcinfo) {
    const township_lots *first = PG_GETARG_LOTS(0);
    const township_lots *second = PG_GETARG_LOTS(1);
    int order = twpg_compare_townships(&first->township.number, &second->township.number);
    int index;

    if (order == 0) {
        order = compare_numbers(first->date, second->date);
    }
    if (order == 0) {
        order = compare_numbers(first->mapped, second->mapped);
    }
    for (index = 0; order == 0 && index < TOWNSHIP_RETURNED_MOST; index++) {
        order = compare_numbers(first->figures[index], second->figures[index]);
    }
    for (index = 0; order == 0 && index < TOWNSHIP_BOUNDS; index++) {
        order = compare_numbers(first->first[index], second->first[index]);
    }
    if (order == 0) {
        order = memcmp(first->numbers, second->numbers, sizeof first->numbers);
    }
    if (order == 0) {
        order = memcmp(first->positions, second->positions, sizeof first->positions);
    }
    return order != 0 ? order : memcmp(first->divided, second->divided, sizeof first->divided);
}

TWPG_COMPARISONS(twpg_lots)

PG_FUNCTION_INFO_V1(twpg_lots_hash);
Datum twpg_lots_hash(PG_FUNCTION_ARGS) {
    twpg_bytes packed = packed_of(PG_GETARG_VARLENA_PP(0));

    return hash_any(packed.start, (int)packed.length);
}

PG_FUNCTION_INFO_V1(twpg_lots_hash_extended);
Datum twpg_lots_hash_extended(PG_FUNCTION_ARGS) {
    twpg_bytes packed = packed_of(PG_GETARG_VARLENA_PP(0));

    return hash_any_extended(packed.start, (int)packed.length, (uint64)PG_GETARG_INT64(1));
}
