/* The input that the tests give the library: files, texts of one letter, and plats; and buffers for its texts. */
#ifndef GIVEN_H
#define GIVEN_H

#include <stdbool.h>
#include <stddef.h>
#include <stdint.h>

#include "township.h"

/*
 * Bytes in a block of exactly their size, at least one, so that memcheck finds a read beyond them. The caller
 * frees them with `drop`. If memory runs out, the program ends.
 */
typedef struct bytes {
    uint8_t *at;
    size_t length;
} bytes;

bytes bytes_of(const char *text);

/* Texts in a row, together at most 1,023 bytes, and the offsets between them, one more than there are texts. */
bytes row_of(const char *const *texts, size_t count, size_t *offsets);
bytes bytes_of_file(const char *folder, const char *name);
void drop(bytes given);

/* A text, and then one byte repeated up to `length` bytes in all. */
bytes padded(const char *text, uint8_t padding, size_t length);

/* Bytes without the lines that begin with `front`. */
bytes without_lines(bytes text, const char *front);

/*
 * A buffer for a text, with bytes on both sides of it that no call may change. Bytes that have not been
 * written are NEVER, a byte that no text contains.
 */
#define NEVER 0xFE
#define MOST_TEXT 70000
#define SIDE 64

typedef struct room {
    uint8_t memory[SIDE + MOST_TEXT + SIDE];
} room;

room *room_new(void);
void room_clear(room *r);
uint8_t *room_text(room *r);

/* Whether exactly this text was written, and nothing before or after it. */
bool room_holds(const room *r, const char *text, size_t length);

/* A plat of even miles: T. 2 N., R. 3 W. */
township_plat even_plat(void);

/* A refusal, and the verdicts with which only a length is given. */
township_answer refused(uint32_t number, uint32_t at);
township_answer tract_refused(uint32_t at, uint32_t inner_number, uint32_t inner_at);
township_answer acres(uint64_t hundredths);
township_answer bare(uint32_t verdict);
township_answer with_length(uint32_t verdict, uint64_t length);

/* An answer with the line and the column, and the length, of its explanation. */
township_answer explained(township_answer answer, uint32_t line, uint32_t column, uint64_t length);

#endif
