/*
 * Makes one call of the library again and again, for bench/library.sh: `library NOTES CALL COUNT`. CALL is `read`
 * (notes to a plat), or a description on the kept plat: `one` part, `two` sections, `three` sections, three `whole`
 * sections, lots and parts in three sections (`mixed`), an `overlap` that is refused, `fifty` or `hundred` parts; or
 * the canonical text of one of these, as `text-one`; or `land` (one part to land), or `combine` or `compare` (land of
 * one section with other land); or the readings of a description (`same`), of a text as leases have it (`a lease`), or
 * of white space between two parts (`ways`). If CALL begins with `table-`, NOTES is a lot table: `table-read`; the
 * acres by it of two sections with lots and a part (`table-two`), or of three whole sections (`table-whole`); or
 * `table-land` or `table-text` (the land of the former, or its canonical text). With `halves-` before `table-two`,
 * `table-land`, or `table-text`, the land is three lots of a section that lie in halves of quarter-quarters. Prints the
 * sum of the calls' answers, so that no call is optimized away, and their processor time in seconds.
 */
#include "township.h"

#include <stdio.h>
#include <stdlib.h>
#include <string.h>
#include <time.h>

static uint8_t notes[TOWNSHIP_NOTES_MOST]; /* or a lot table */
static uint8_t text[4096];

/* Writes a description of a number of squares of 2.5 acres in section 14, and returns its length. */
static size_t squares(unsigned count) {
    static const char *corners[] = {"NE1/4", "NW1/4", "SW1/4", "SE1/4"};
    size_t length = (size_t)sprintf((char *)text, "sec. 14");
    for (unsigned square = 0; square < count; square++) {
        length += (size_t)sprintf((char *)text + length, ", %s%s%s%s", corners[square / 64 % 4],
                                  corners[square / 16 % 4], corners[square / 4 % 4], corners[square % 4]);
    }
    return length;
}

static size_t description_of(const char *call) {
    static const struct {
        const char *call, *description;
    } named[] = {
        {"one", "sec. 14, NE1/4."},
        {"two", "T. 2 N., R. 3 W., sec. 5, lots 1 and 2, S1/2NE1/4; sec. 14, NE1/4."},
        {"three", "T. 2 N., R. 3 W., sec. 8, SE1/4SE1/4; sec. 14, N1/2, SE1/4; sec. 23, N1/2NE1/4, SW1/4."},
        {"whole", "secs. 14, 15, and 23."},
        {"mixed", "sec. 5, lots 1 and 2, S1/2NE1/4; sec. 14, NE1/4; sec. 20, S1/2NW1/4, SE1/4."},
        {"table-two", "sec. 5, lots 1 and 2, S1/2NE1/4; sec. 14, SE1/4."},
        {"table-whole", "secs. 14, 15, and 23."},
        {"halves", "sec. 16, lots 1, 2, and 4."},
        {"overlap", "sec. 14, NE1/4 and N1/2."},
    };
    for (size_t row = 0; row < sizeof named / sizeof named[0]; row++) {
        if (strcmp(call, named[row].call) == 0) {
            return (size_t)sprintf((char *)text, "%s", named[row].description);
        }
    }
    return squares(strcmp(call, "fifty") == 0 ? 50 : 100);
}

/* One of the calls on land, as often as it is to be made. Returns the sum of the answers. */
static uint64_t on_land(const char *call, long count) {
    static const township_designation here = {2, TOWNSHIP_NORTH, 3, TOWNSHIP_WEST};
    static const uint8_t north[] = "sec. 14, N1/2.", corner[] = "sec. 14, NE1/4.";
    static township_land first, second, made;
    uint32_t comparison = 0;
    uint64_t sum = 0;

    township_land_read(&here, north, sizeof north - 1, &first);
    township_land_read(&here, corner, sizeof corner - 1, &second);
    if (strcmp(call, "land") == 0) {
        for (long done = 0; done < count; done++) {
            sum += township_land_read(&here, corner, sizeof corner - 1, &made).verdict + made.rows[13][31];
        }
    } else if (strcmp(call, "combine") == 0) {
        for (long done = 0; done < count; done++) {
            sum += township_land_combine(&first, &second, TOWNSHIP_DIFFERENCE, &made).verdict + made.rows[13][31];
        }
    } else {
        for (long done = 0; done < count; done++) {
            sum += township_land_compare(&first, &second, &comparison).verdict + comparison;
        }
    }
    return sum;
}

/* One of the calls by a lot table, on this description, as often as it is to be made. Returns the answers' sum. */
static uint64_t by_table(const char *call, const char *described, const uint8_t *table, size_t table_length,
                         long count) {
    static township_lots lots;
    static township_land land;
    static uint8_t written[4096];
    size_t length = description_of(described);
    uint64_t sum = township_lots_read(table, table_length, &lots).verdict;

    sum += township_lots_land_read(&lots, text, length, &land).verdict;
    for (long done = 0; done < count; done++) {
        if (strcmp(call, "table-read") == 0) {
            sum += township_lots_read(table, table_length, &lots).verdict;
        } else if (strcmp(call, "table-land") == 0) {
            sum += township_lots_land_read(&lots, text, length, &land).verdict;
        } else if (strcmp(call, "table-text") == 0) {
            sum += township_lots_land_text(&lots, &land, written, sizeof written).length + written[0];
        } else {
            sum += township_lots_acres(&lots, text, length).hundredths;
        }
    }
    return sum;
}

/* The readings of a text, as often as they are to be found. Returns the sum of the answers. */
static uint64_t readings(const char *given, long count) {
    static township_reading found[TOWNSHIP_READINGS_MOST];
    static township_change changes[64];
    township_suggestion said;
    uint64_t sum = 0;

    for (long done = 0; done < count; done++) {
        sum += township_suggest((const uint8_t *)given, strlen(given), found, TOWNSHIP_READINGS_MOST, changes, 64, text,
                                sizeof text, &said)
                   .verdict;
        sum += said.bytes;
    }
    return sum;
}

int main(int argc, char **argv) {
    if (argc != 4) {
        fputs("usage: library NOTES CALL COUNT\n", stderr);
        return 2;
    }
    FILE *file = fopen(argv[1], "rb");
    if (file == NULL) {
        perror(argv[1]);
        return 3;
    }
    size_t notes_length = fread(notes, 1, sizeof notes, file);
    fclose(file);
    long count = atol(argv[3]);
    township_plat plat;
    uint64_t sum = 0;
    township_answer answer = township_read(notes, notes_length, &plat);
    clock_t begun = clock();
    if (strcmp(argv[2], "read") == 0) {
        for (long made = 0; made < count; made++) {
            sum += township_read(notes, notes_length, &plat).verdict + plat.number;
        }
    } else if (strncmp(argv[2], "table-", 6) == 0) {
        const char *described = strcmp(argv[2], "table-whole") == 0 ? "table-whole" : "table-two";
        sum = by_table(argv[2], described, notes, notes_length, count);
    } else if (strncmp(argv[2], "halves-", 7) == 0) {
        sum = by_table(argv[2] + 7, "halves", notes, notes_length, count);
    } else if (argv[2][0] == 'l' || argv[2][0] == 'c') {
        sum = on_land(argv[2], count);
    } else if (strncmp(argv[2], "text-", 5) == 0) {
        static uint8_t written[4096];
        size_t length = description_of(argv[2] + 5);
        for (long made = 0; made < count; made++) {
            answer = township_normal(&plat, text, length, written, sizeof written);
            sum += answer.length + written[0];
        }
    } else if (strcmp(argv[2], "same") == 0) {
        sum = readings("sec. 14, NE1/4.", count);
    } else if (strcmp(argv[2], "a lease") == 0) {
        sum = readings("NENE, S2NE4 Sec 14-2N-3W", count);
    } else if (strcmp(argv[2], "ways") == 0) {
        sum = readings("sec. 14: NE1/4NE1/4 SW1/4SW1/4", count);
    } else {
        size_t length = description_of(argv[2]);
        for (long made = 0; made < count; made++) {
            answer = township_acres(&plat, text, length, TOWNSHIP_EXACT);
            sum += answer.hundredths + answer.at;
        }
    }
    double taken = (double)(clock() - begun) / CLOCKS_PER_SEC;
    printf("%llu %u %.6f\n", (unsigned long long)sum, answer.verdict, taken);
    return 0;
}
