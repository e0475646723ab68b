/*
 * What makes this file a module of the server, and the version of the library in it.
 */
#include "twpg.h"

PG_MODULE_MAGIC;

static township_answer write_version(const void *given, uint8_t *text, size_t room) {
    (void)given;
    return township_version(text, room);
}

PG_FUNCTION_INFO_V1(twpg_version);
Datum twpg_version(PG_FUNCTION_ARGS) {
    char *version;
    township_answer answer = twpg_write(write_version, NULL, &version);

    (void)fcinfo;
    if (answer.verdict != TOWNSHIP_ACCEPTED) {
        twpg_fail(answer.verdict);
    }
    PG_RETURN_TEXT_P(cstring_to_text(version));
}
