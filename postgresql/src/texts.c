/*
 * Texts of the database for the library, which reads UTF-8, and texts of the library for the database.
 */
#include "twpg.h"

#include "mb/pg_wchar.h"

/* Holds every explanation, and all but long canonical texts. */
#define USUAL_ROOM 4096

/* In a database without an encoding, bytes are passed on as they are: the library refuses those that are not
   allowed. */
static bool has_encoding(void) {
    return GetDatabaseEncoding() != PG_SQL_ASCII;
}

twpg_bytes twpg_bytes_of(const char *given, size_t length) {
    twpg_bytes bytes = {(const uint8_t *)given, length};

    if (has_encoding()) {
        char *utf8 = pg_server_to_any(given, (int)length, PG_UTF8);

        if (utf8 != given) {
            bytes.start = (const uint8_t *)utf8;
            bytes.length = strlen(utf8);
        }
    }
    return bytes;
}

twpg_bytes twpg_bytes_of_text(const text *given) {
    return twpg_bytes_of(VARDATA_ANY(given), VARSIZE_ANY_EXHDR(given));
}

char *twpg_from_utf8(const char *utf8) {
    char *text = has_encoding() ? pg_any_to_server(utf8, (int)strlen(utf8), PG_UTF8) : (char *)utf8;

    return text == utf8 ? pstrdup(utf8) : text;
}

/* A part of a text that the library has written: so many bytes from a place on. */
char *twpg_text_in(const char *utf8, uint64_t start, uint64_t length) {
    return twpg_from_utf8(pnstrdup(utf8 + start, (size_t)length));
}

/* Writes a text, which the caller owns; it is empty if there is none. The library says how much room a long
   one needs. */
township_answer twpg_write(twpg_writer writer, const void *given, char **written) {
    uint8_t usual[USUAL_ROOM];
    township_answer answer = writer(given, usual, sizeof usual);

    if (answer.verdict != TOWNSHIP_NO_ROOM) {
        *written = pnstrdup((const char *)usual, Min((size_t)answer.length, sizeof usual));
        return answer;
    }
    *written = palloc0((size_t)answer.length + 1);
    return writer(given, (uint8_t *)*written, (size_t)answer.length);
}

/* Puts a canonical text on one line, as it is most useful in a table: line feeds mean no more than spaces in
   it. */
char *twpg_one_line(char *written) {
    size_t length = strlen(written);
    char *at;

    if (length > 0 && written[length - 1] == '\n') {
        written[length - 1] = '\0';
    }
    for (at = written; *at != '\0'; at++) {
        if (*at == '\n') {
            *at = ' ';
        }
    }
    return written;
}
