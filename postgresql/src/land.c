/*
 * Lands as values of the database, and their binary form: a version, and the bytes of the packed land. Land on the plat
 * of a lot table has a version of its own, so that those who know only the standard lots refuse it.
 */
#include "land.h"

#include "libpq/pqformat.h"
#include "miscadmin.h"

#define BINARY_VERSION 1
#define BINARY_VERSION_ON_PLAT 2

StaticAssertDecl(sizeof(township_designation) == 4, "the designation is the first four bytes of a packed land");

twpg_packed twpg_packed_of(const struct varlena *stored) {
    twpg_packed packed = {(const uint8_t *)VARDATA_ANY(stored), VARSIZE_ANY_EXHDR(stored)};

    if (!twpg_has_head(packed)) {
        twpg_fail(TOWNSHIP_NO_LAND);
    }
    return packed;
}

void twpg_land_of(const struct varlena *stored, township_land *land) {
    if (!twpg_unpack(twpg_packed_of(stored), land)) {
        twpg_fail(TOWNSHIP_NO_LAND);
    }
}

Datum twpg_land_datum(const township_land *land) {
    uint8_t bytes[TWPG_LAND_MOST];
    size_t length = twpg_pack(land, bytes);
    struct varlena *stored = palloc(VARHDRSZ + length);

    SET_VARSIZE(stored, VARHDRSZ + length);
    memcpy(VARDATA(stored), bytes, length);
    return PointerGetDatum(stored);
}

static int version_of(twpg_packed packed) {
    twpg_site site = twpg_site_of_packed(packed);

    return site.date == 0 && site.own_lots == 0 ? BINARY_VERSION : BINARY_VERSION_ON_PLAT;
}

PG_FUNCTION_INFO_V1(twpg_land_send);
Datum twpg_land_send(PG_FUNCTION_ARGS) {
    twpg_packed packed = twpg_packed_of(PG_GETARG_LAND(0));
    StringInfoData sent;

    pq_begintypsend(&sent);
    pq_sendbyte(&sent, version_of(packed));
    pq_sendbytes(&sent, (const char *)packed.start, (int)packed.length);
    PG_RETURN_BYTEA_P(pq_endtypsend(&sent));
}

static void refuse_received(const char *why) {
    ereport(ERROR, (errcode(ERRCODE_INVALID_BINARY_REPRESENTATION), errmsg("these bytes are no land: %s", why)));
}

/* Whether a land is valid, the library says: any call does, such as a comparison with itself. It takes any number for
   the date of a plat, but the text of land needs a day that there is. */
static void check_received(const township_land *land) {
    uint32_t comparison;
    uint32_t verdict;

    if (land->date != 0 && !twpg_is_date(land->date)) {
        refuse_received("there is no such date");
    }
    check_stack_depth();
    verdict = township_land_compare(land, land, &comparison).verdict;
    if (verdict == TOWNSHIP_NO_LAND) {
        refuse_received("there is no such township, or part of a lot is in them");
    }
    if (verdict != TOWNSHIP_ACCEPTED) {
        twpg_fail(verdict);
    }
}

PG_FUNCTION_INFO_V1(twpg_land_recv);
Datum twpg_land_recv(PG_FUNCTION_ARGS) {
    StringInfo received = (StringInfo)PG_GETARG_POINTER(0);
    int version = pq_getmsgbyte(received);
    twpg_packed packed;
    township_land land;

    if (version != BINARY_VERSION && version != BINARY_VERSION_ON_PLAT) {
        refuse_received("unknown version");
    }
    packed.length = (size_t)(received->len - received->cursor);
    packed.start = (const uint8_t *)pq_getmsgbytes(received, (int)packed.length);
    if (!twpg_unpack(packed, &land) || version_of(packed) != version) {
        refuse_received("they are not in the form of one");
    }
    check_received(&land);
    return twpg_land_datum(&land);
}

PG_FUNCTION_INFO_V1(twpg_land_township);
Datum twpg_land_township(PG_FUNCTION_ARGS) {
    const uint8_t *township = twpg_packed_of(PG_GETARG_LAND(0)).start;

    PG_RETURN_TEXT_P(
        cstring_to_text(twpg_township_text(township[0], township[1], township[2], township[3])));
}
