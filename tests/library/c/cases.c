/*
 * Answers cases that it reads on standard input, and compares each answer with the expected one. A case is one line of
 * words, and then the bytes whose numbers it gives, one text right after another:
 *
 *     NAME KIND NOTES INPUT ANSWER
 *
 * NAME is the name of the case. KIND is `acres`, `by-plat` (acres by the printed plat), `plat`, `normal`, or
 * `report`. NOTES, INPUT, and ANSWER are numbers of bytes: of the field notes; of the description or the list of
 * tracts, 0 for `plat`; and of the expected answer, as the program `township` writes it. A line feed ends a
 * case, after its bytes. tests/library/c/case_records.py writes this form, and so does tests/program/damaged.sh, with
 * the program's answers as the expected ones.
 *
 * In addition to the answer, it compares the rounded exact area of all land that has acres, the verdict of each refusal
 * that is explained, and the land of each description by a lot table with the standard lots, which is the land without
 * one. The last line is `N passed, M failed`.
 */
#include <stdlib.h>
#include <string.h>

#include "area.h"
#include "check.h"

/* The most bytes of a text in a case, and of an answer. */
#define MOST_BYTES (4 << 20)
#define MOST_SHOWN 10

typedef struct test_case {
    char name[64];
    char kind[16];
    size_t notes_length;
    size_t input_length;
    size_t wanted_length;
    uint8_t *notes;
    uint8_t *input;
    uint8_t *wanted;
} test_case;

static uint8_t text[MOST_BYTES];
static uint8_t explanation[MOST_BYTES];

static void give_up(const char *what) {
    fprintf(stderr, "cases: %s\n", what);
    exit(2);
}

static uint8_t *read_bytes(size_t length) {
    uint8_t *at = malloc(length + 1);

    if (at == NULL) {
        give_up("out of memory");
    }
    if (fread(at, 1, length, stdin) != length) {
        give_up("a case ends too soon");
    }
    return at;
}

/* Reads the next case, or false at the end of input. */
static bool read_case(test_case *next) {
    int words = scanf("%63s %15s %zu %zu %zu", next->name, next->kind, &next->notes_length, &next->input_length,
                      &next->wanted_length);

    if (words == EOF) {
        return false;
    }
    if (words != 5 || getchar() != '\n' || next->notes_length > MOST_BYTES || next->input_length > MOST_BYTES ||
        next->wanted_length > MOST_BYTES) {
        give_up("this is no line of a case");
    }
    next->notes = read_bytes(next->notes_length);
    next->input = read_bytes(next->input_length);
    next->wanted = read_bytes(next->wanted_length);
    if (getchar() != '\n') {
        give_up("a case has more bytes than its line says");
    }
    return true;
}

static void drop_case(test_case *done) {
    free(done->notes);
    free(done->input);
    free(done->wanted);
}

static bool is_kind(const test_case *given, const char *kind) {
    return strcmp(given->kind, kind) == 0;
}

static bool is_of_acres(const test_case *given) {
    return is_kind(given, "acres") || is_kind(given, "by-plat");
}

/* The answer of the case on its plat. A text goes to `text`. */
static township_answer answer_on(const township_plat *plat, const test_case *given) {
    if (is_of_acres(given)) {
        return township_acres(plat, given->input, given->input_length,
                              is_kind(given, "by-plat") ? TOWNSHIP_BY_PLAT : TOWNSHIP_EXACT);
    }
    if (is_kind(given, "normal")) {
        return township_normal(plat, given->input, given->input_length, text, sizeof text);
    }
    if (is_kind(given, "report")) {
        return township_report(plat, given->input, given->input_length, text, sizeof text);
    }
    if (!is_kind(given, "plat")) {
        give_up("this is no kind of case");
    }
    return township_print(plat, text, sizeof text);
}

/* Writes the answer to `text` as the program does, unless it is there already, and returns its length. */
static size_t write_answer(const test_case *given, township_answer answer) {
    char *to = (char *)text;
    int length;

    if (answer.verdict == TOWNSHIP_ACCEPTED && !is_of_acres(given)) {
        return (size_t)answer.length;
    }
    if (answer.verdict == TOWNSHIP_ACCEPTED) {
        length = sprintf(to, "%" PRIu64 ".%02" PRIu64 " acres\n", answer.hundredths / 100, answer.hundredths % 100);
    } else if (answer.verdict == TOWNSHIP_REFUSED) {
        length = sprintf(to, "refused %" PRIu32 " at %" PRIu32 "\n", answer.number, answer.at);
    } else if (answer.verdict == TOWNSHIP_TRACT_REFUSED) {
        length = sprintf(to, "refused %" PRIu32 " at %" PRIu32 "\nrefused %" PRIu32 " at %" PRIu32 "\n",
                         answer.number, answer.at, answer.inner_number, answer.inner_at);
    } else {
        length = sprintf(to, "verdict %" PRIu32 "\n", answer.verdict);
    }
    return (size_t)length;
}

/* The explanation of the case's fault, if it has one. */
static township_answer explain(const township_plat *plat, const test_case *given, bool is_read) {
    static const uint8_t name[] = {'i', 'n'};

    if (!is_read || is_kind(given, "plat")) {
        return township_explain_notes(given->notes, given->notes_length, name, sizeof name, explanation,
                                      sizeof explanation);
    }
    if (is_kind(given, "report")) {
        return township_explain_list(plat, given->input, given->input_length, name, sizeof name, explanation,
                                     sizeof explanation);
    }
    return township_explain_description(plat, given->input, given->input_length, name, sizeof name, explanation,
                                        sizeof explanation);
}

/* Whether the explanation is for this answer: for the same refusal; accepted land may have a note, with its place. */
static bool is_explained(township_answer explained, township_answer answer, bool is_plat) {
    bool has_text = explained.length > 0;
    bool has_place = explained.line > 0 && explained.column > 0;

    return explained.verdict == answer.verdict && explained.number == answer.number && explained.at == answer.at &&
           explained.inner_number == answer.inner_number && explained.inner_at == answer.inner_at &&
           (answer.verdict == TOWNSHIP_ACCEPTED ? has_text == has_place && !(is_plat && has_text) : has_text);
}

/* Whether the exact area of the case's land has these hundredths. */
static bool is_area_of(const township_plat *plat, const test_case *given, uint64_t hundredths) {
    township_fraction area = {0, 0, 0};
    township_answer answer = township_area(plat, given->input, given->input_length,
                                           is_kind(given, "by-plat") ? TOWNSHIP_BY_PLAT : TOWNSHIP_EXACT, &area);

    return answer.verdict == TOWNSHIP_ACCEPTED && area.over >= 1 && hundredths_of(area) == hundredths;
}

/* Whether a lot table with the standard lots, in the township of the plat, reads a description as it is read without a
   table, and writes the same text for its land. Both texts are written over earlier ones. */
static bool is_same_by_standard_lots(const township_plat *plat, const test_case *given) {
    static const township_lots no_figures;
    township_lots lots = no_figures;
    township_land land, land_by_lots;
    township_answer answer, by_lots;

    lots.township = (township_designation){plat->number, plat->north_south, plat->range, plat->east_west};
    memset(&land, 0, sizeof land);
    memset(&land_by_lots, 0, sizeof land_by_lots);
    answer = township_land_read(&lots.township, given->input, given->input_length, &land);
    by_lots = township_lots_land_read(&lots, given->input, given->input_length, &land_by_lots);
    if (!same_answer(answer, by_lots) || memcmp(&land, &land_by_lots, sizeof land) != 0) {
        return false;
    }
    if (answer.verdict != TOWNSHIP_ACCEPTED) {
        return true;
    }
    answer = township_land_text(&land, text, sizeof text);
    by_lots = township_lots_land_text(&lots, &land, explanation, sizeof explanation);
    return answer.verdict == TOWNSHIP_ACCEPTED && same_answer(answer, by_lots) &&
           memcmp(text, explanation, answer.length) == 0;
}

static void show(const test_case *given, size_t length) {
    static int shown;

    if (shown++ < MOST_SHOWN) {
        printf("%s %s: %.*s  not %.*s", given->name, given->kind, length < 90 ? (int)length : 90, (char *)text,
               given->wanted_length < 90 ? (int)given->wanted_length : 90, (char *)given->wanted);
    }
}

static void try_case(const test_case *given) {
    township_plat plat;
    township_answer answer = township_read(given->notes, given->notes_length, &plat);
    bool is_read = answer.verdict == TOWNSHIP_ACCEPTED;
    bool same;
    size_t length;

    if (is_read) {
        answer = answer_on(&plat, given);
    }
    length = write_answer(given, answer);
    same = length == given->wanted_length && memcmp(text, given->wanted, length) == 0;
    if (!same) {
        show(given, length);
    }
    CHECK(same);
    CHECK(is_explained(explain(&plat, given, is_read), answer, is_kind(given, "plat")));
    if (answer.verdict == TOWNSHIP_ACCEPTED && is_of_acres(given)) {
        CHECK(is_area_of(&plat, given, answer.hundredths));
    }
    if (is_read && (is_of_acres(given) || is_kind(given, "normal"))) {
        CHECK(is_same_by_standard_lots(&plat, given));
    }
}

int main(void) {
    test_case next;

    while (read_case(&next)) {
        try_case(&next);
        drop_case(&next);
    }
    return checked();
}
