#include "given.h"

#include <stdio.h>
#include <stdlib.h>
#include <string.h>

static void *block(size_t length) {
    void *at = malloc(length > 0 ? length : 1);

    if (at == NULL) {
        perror("malloc");
        exit(2);
    }
    return at;
}

static bytes bytes_from(const void *from, size_t length) {
    bytes copy = {block(length), length};

    memcpy(copy.at, from, length);
    return copy;
}

bytes bytes_of(const char *text) {
    return bytes_from(text, strlen(text));
}

bytes row_of(const char *const *texts, size_t count, size_t *offsets) {
    char row[1024] = "";

    offsets[0] = 0;
    for (size_t i = 0; i < count; i++) {
        strcat(row, texts[i]);
        offsets[i + 1] = strlen(row);
    }
    return bytes_of(row);
}

bytes bytes_of_file(const char *folder, const char *name) {
    char path[4096];
    static uint8_t buffer[TOWNSHIP_NOTES_MOST];
    FILE *file;
    size_t length;

    snprintf(path, sizeof path, "%s/%s", folder, name);
    file = fopen(path, "rb");
    if (file == NULL) {
        perror(path);
        exit(2);
    }
    length = fread(buffer, 1, sizeof buffer, file);
    fclose(file);
    return bytes_from(buffer, length);
}

void drop(bytes given) {
    free(given.at);
}

bytes padded(const char *text, uint8_t padding, size_t length) {
    bytes made = {block(length), length};
    size_t front = strlen(text);

    memset(made.at, padding, length);
    memcpy(made.at, text, front);
    return made;
}

/* The end of the line that begins here: after its line feed, or at the end of the text. */
static size_t line_end(bytes text, size_t start) {
    const uint8_t *feed = memchr(text.at + start, '\n', text.length - start);

    return feed == NULL ? text.length : (size_t)(feed - text.at) + 1;
}

bytes without_lines(bytes text, const char *front) {
    bytes kept = {block(text.length), 0};
    size_t front_length = strlen(front);
    size_t start = 0;

    while (start < text.length) {
        size_t end = line_end(text, start);

        if (end - start < front_length || memcmp(text.at + start, front, front_length) != 0) {
            memcpy(kept.at + kept.length, text.at + start, end - start);
            kept.length += end - start;
        }
        start = end;
    }
    return kept;
}

room *room_new(void) {
    room *r = block(sizeof *r);

    room_clear(r);
    return r;
}

void room_clear(room *r) {
    memset(r->memory, NEVER, sizeof r->memory);
}

uint8_t *room_text(room *r) {
    return r->memory + SIDE;
}

static bool is_never(const uint8_t *from, const uint8_t *to) {
    for (; from < to; from++) {
        if (*from != NEVER) {
            return false;
        }
    }
    return true;
}

bool room_holds(const room *r, const char *text, size_t length) {
    const uint8_t *start = r->memory + SIDE;

    return is_never(r->memory, start) && memcmp(start, text, length) == 0 &&
           is_never(start + length, r->memory + sizeof r->memory);
}

township_plat even_plat(void) {
    township_plat plat = {.number = 2, .north_south = TOWNSHIP_NORTH, .range = 3, .east_west = TOWNSHIP_WEST};

    for (int line = 0; line < TOWNSHIP_LINES; line++) {
        plat.closing_quarters[line] = 20000;
    }
    return plat;
}

township_answer refused(uint32_t number, uint32_t at) {
    return (township_answer){.verdict = TOWNSHIP_REFUSED, .number = number, .at = at};
}

township_answer tract_refused(uint32_t at, uint32_t inner_number, uint32_t inner_at) {
    return (township_answer){.verdict = TOWNSHIP_TRACT_REFUSED,
                             .number = 83,
                             .at = at,
                             .inner_number = inner_number,
                             .inner_at = inner_at};
}

township_answer acres(uint64_t hundredths) {
    return (township_answer){.verdict = TOWNSHIP_ACCEPTED, .hundredths = hundredths};
}

township_answer bare(uint32_t verdict) {
    return (township_answer){.verdict = verdict};
}

township_answer with_length(uint32_t verdict, uint64_t length) {
    return (township_answer){.verdict = verdict, .length = length};
}

township_answer explained(township_answer answer, uint32_t line, uint32_t column, uint64_t length) {
    answer.line = line;
    answer.column = column;
    answer.length = length;
    return answer;
}
