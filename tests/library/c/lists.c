#include "lists.h"

#include <stdlib.h>
#include <string.h>

#include "check.h"

_Static_assert(sizeof(township_tract) == 80, "a tract has 80 bytes");
_Static_assert(offsetof(township_tract, name) == 12, "a name follows its length");
_Static_assert(sizeof(township_totals) == 16, "totals have 16 bytes");
_Static_assert(sizeof(township_tract_answer) == 120, "the answer to a tract has 120 bytes");
_Static_assert(sizeof(township_overlap) == 16, "an overlap has 16 bytes");
_Static_assert(offsetof(township_tract_answer, name) == 52, "a name follows its length");

#define COUNT(array) (sizeof(array) / sizeof *(array))

#define HEADING "name,description\n"
#define LONGEST "0123456789abcdef0123456789abcdef0123456789abcdef0123456789abcdef"

/* Room for tracts, with one more after it; and for totals. No byte has been written. */
typedef struct account {
    township_tract tracts[5];
    township_totals totals;
} account;

static account blank(void) {
    account made;

    memset(&made, NEVER, sizeof made);
    return made;
}

static township_answer account_of(const township_plat *plat, const char *text, size_t room, account *to) {
    bytes list = bytes_of(text);
    township_answer answer = township_account(plat, list.at, list.length, to->tracts, room, &to->totals);

    drop(list);
    return answer;
}

/* Whether a tract has this name, zero bytes after it, and this figure. */
static bool is_tract(const township_tract *tract, const char *name, uint64_t hundredths) {
    char wanted[TOWNSHIP_NAME_ROOM] = {0};

    memcpy(wanted, name, strlen(name));
    return tract->hundredths == hundredths && tract->name_length == strlen(name) &&
           memcmp(tract->name, wanted, sizeof wanted) == 0;
}

/* The lines that township_report prints for the figures of an account. */
static size_t print_account(const account *from, size_t count, char *to, size_t room) {
    size_t length = 0;

    for (size_t i = 0; i < count; i++) {
        const township_tract *tract = &from->tracts[i];

        length += (size_t)snprintf(to + length, room - length, "tract %s: %" PRIu64 ".%02" PRIu64 " acres\n",
                                   tract->name, tract->hundredths / 100, tract->hundredths % 100);
    }
    length += (size_t)snprintf(to + length, room - length, "total: %" PRIu64 ".%02" PRIu64 " acres\n",
                               from->totals.total / 100, from->totals.total % 100);
    length += (size_t)snprintf(to + length, room - length, "remaining: %" PRIu64 ".%02" PRIu64 " acres\n",
                               from->totals.remaining / 100, from->totals.remaining % 100);
    return length;
}

/* The figures, printed, are the text of the report. */
static void is_reported(const township_plat *plat, const char *text, size_t count) {
    bytes list = bytes_of(text);
    account found = blank();
    char printed[1024], reported[1024];
    size_t length;

    CHECK_ANSWER(account_of(plat, text, COUNT(found.tracts), &found), with_length(TOWNSHIP_ACCEPTED, count));
    length = print_account(&found, count, printed, sizeof printed);
    CHECK_ANSWER(township_report(plat, list.at, list.length, (uint8_t *)reported, sizeof reported),
                 with_length(TOWNSHIP_ACCEPTED, length));
    CHECK(memcmp(printed, reported, length) == 0);
    drop(list);
}

/*
 * Lots 1 and 4 of section 7 have 39.18 and 39.03 acres on the plat of the samples, and 78.20 acres together;
 * section 14 has 640.00, and the township 23,037.57.
 */
static void has_figures_of_tracts(const township_plat *plat) {
    static const char *const two = HEADING "A,\"sec. 7, lot 1.\"\n\"the \"\"old\"\" place\",\"sec. 7, lot 4.\"\n";
    static const char *const longest = HEADING LONGEST ",sec. 14\n";
    account none = blank();
    account found = blank();

    CHECK_ANSWER(account_of(plat, two, 2, &found), with_length(TOWNSHIP_ACCEPTED, 2));
    CHECK(is_tract(&found.tracts[0], "A", 3918) && is_tract(&found.tracts[1], "the \"old\" place", 3903));
    CHECK(memcmp(&found.tracts[2], &none.tracts[2], sizeof found.tracts[2]) == 0);
    CHECK(found.totals.total == 7820 && found.totals.remaining == 2295937);
    is_reported(plat, two, 2);

    CHECK_ANSWER(account_of(plat, longest, 1, &found), with_length(TOWNSHIP_ACCEPTED, 1));
    CHECK(is_tract(&found.tracts[0], LONGEST, 64000));
    CHECK(found.totals.total == 64000 && found.totals.remaining == 2239757);
    is_reported(plat, longest, 1);

    found = none;
    CHECK_ANSWER(account_of(plat, HEADING, 0, &found), with_length(TOWNSHIP_ACCEPTED, 0));
    CHECK(memcmp(found.tracts, none.tracts, sizeof found.tracts) == 0);
    CHECK(found.totals.total == 0 && found.totals.remaining == 2303757);
    is_reported(plat, HEADING, 0);

    found = none;
    for (size_t room = 0; room < 2; room++) {
        CHECK_ANSWER(account_of(plat, two, room, &found), with_length(TOWNSHIP_NO_ROOM, 2));
        CHECK(memcmp(&found, &none, sizeof found) == 0);
    }
}

/* Lists that have no account: township_report refuses them the same way. */
static const char *const refused_lists[] = {
    "",
    "name;description\n",
    HEADING "A,sec. 7, lot 1.\n",
    HEADING ",sec. 14\n",
    HEADING LONGEST "g,sec. 14\n",
    HEADING "A,sec. 14.\nA,sec. 15.\n",
    HEADING "A,\"sec. 14, NE1/4 and N1/2.\"\n",
    HEADING "A,sec. 14.\nB,\"sec. 14, NE1/4.\"\n",
};

static void refuses_accounts_of_lists(const township_plat *plat) {
    account none = blank();

    for (size_t i = 0; i < COUNT(refused_lists); i++) {
        bytes list = bytes_of(refused_lists[i]);
        uint8_t text[256];
        account found = none;
        township_answer answer = account_of(plat, refused_lists[i], COUNT(found.tracts), &found);

        CHECK(answer.verdict == TOWNSHIP_REFUSED || answer.verdict == TOWNSHIP_TRACT_REFUSED);
        CHECK_ANSWER(answer, township_report(plat, list.at, list.length, text, sizeof text));
        CHECK(memcmp(&found, &none, sizeof found) == 0);
        drop(list);
    }
}

/* A list of as many tracts as there can be, and one of one tract more. Each tract is an eighth of a mile square. */
static void has_the_most_tracts(const township_plat *plat) {
    static const char *const quarters[] = {"NE1/4", "NW1/4", "SE1/4", "SW1/4"};
    static const int sections[] = {8, 9, 10, 11, 12, 13, 14, 15, 16, 17, 20, 21, 22, 23, 24, 25};
    size_t room = 64 * 1024;
    char *text = malloc(room);
    size_t length = (size_t)snprintf(text, room, HEADING);
    township_tract *tracts = calloc(TOWNSHIP_TRACTS_MOST, sizeof *tracts);
    township_totals totals = {0, 0};

    for (int i = 0; i < TOWNSHIP_TRACTS_MOST; i++) {
        length += (size_t)snprintf(text + length, room - length, "tract %d,\"sec. %d, %s%s%s\"\n", i,
                                   sections[i / 64], quarters[i / 16 % 4], quarters[i / 4 % 4], quarters[i % 4]);
    }
    CHECK_ANSWER(township_account(plat, (uint8_t *)text, length, tracts, TOWNSHIP_TRACTS_MOST, &totals),
                 with_length(TOWNSHIP_ACCEPTED, TOWNSHIP_TRACTS_MOST));
    /* 10 acres each: 10,000 of 23,037.57 acres. */
    CHECK(totals.total == 1000000 && totals.remaining == 1303757);
    CHECK(is_tract(&tracts[0], "tract 0", 1000) && is_tract(&tracts[999], "tract 999", 1000));
    length += (size_t)snprintf(text + length, room - length, "one more,sec. 36\n");
    CHECK_ANSWER(township_account(plat, (uint8_t *)text, length, tracts, TOWNSHIP_TRACTS_MOST, &totals),
                 refused(85, 1002));
    free(tracts);
    free(text);
}

void has_accounts(const township_plat *plat) {
    has_figures_of_tracts(plat);
    refuses_accounts_of_lists(plat);
    has_the_most_tracts(plat);
}

/* Whether this is the answer to a tract of this name, or of none. */
static bool is_answered(const township_tract_answer *found, const char *name, township_answer wanted) {
    char padded[TOWNSHIP_NAME_ROOM] = {0};

    memcpy(padded, name, strlen(name));
    return same_answer(found->answer, wanted) && found->name_length == strlen(name) &&
           memcmp(found->name, padded, sizeof padded) == 0;
}

static township_answer each_of(const township_plat *plat, const char *text, township_tract_answer *to, size_t room) {
    bytes list = bytes_of(text);
    township_answer answer = township_report_each(plat, list.at, list.length, to, room);

    drop(list);
    return answer;
}

/* Of nine tracts, three have acres; the others have each fault that a tract can have by itself. */
static const char mixed[] = HEADING "A,\"sec. 7, lot 1.\"\n"
                                    "B,\"sec. 7, lot 5.\"\n"
                                    "C\n"
                                    "A,sec. 14\n"
                                    "C,sec. 14,more\n"
                                    "C,sec. 15\n"
                                    "D,\"sec. 14, NE1/4 and N1/2.\"\n"
                                    "\"E, \"\"the\"\" one\",sec. 14\n"
                                    "F,\"sec. 14, NE1/4\"\n";
#define MIXED 9

void has_answers_of_tracts(const township_plat *plat) {
    township_tract_answer none[MIXED + 1], found[MIXED + 1];

    memset(none, NEVER, sizeof none);
    memcpy(found, none, sizeof found);
    CHECK_ANSWER(each_of(plat, mixed, found, MIXED - 1), with_length(TOWNSHIP_NO_ROOM, MIXED));
    CHECK(memcmp(found, none, sizeof found) == 0);
    CHECK_ANSWER(each_of(plat, mixed, found, MIXED + 1), with_length(TOWNSHIP_ACCEPTED, MIXED));
    CHECK(is_answered(&found[0], "A", acres(3918)));
    CHECK(is_answered(&found[1], "B", tract_refused(3, 64, 12)));
    CHECK(is_answered(&found[2], "", refused(81, 4)));
    CHECK(is_answered(&found[3], "A", refused(82, 5)));
    CHECK(is_answered(&found[4], "", refused(81, 6)));
    CHECK(is_answered(&found[5], "C", refused(82, 7)));
    CHECK(is_answered(&found[6], "D", tract_refused(8, 67, 19)));
    CHECK(is_answered(&found[7], "E, \"the\" one", acres(64000)));
    CHECK(is_answered(&found[8], "F", acres(16000)));
    CHECK(memcmp(&found[MIXED], &none[MIXED], sizeof *none) == 0);
    CHECK_ANSWER(each_of(plat, HEADING, found, 0), with_length(TOWNSHIP_ACCEPTED, 0));
    CHECK_ANSWER(each_of(plat, "name\nA,sec. 14\n", found, MIXED), refused(81, 1));
    CHECK_ANSWER(each_of(plat, "", found, MIXED), refused(81, 1));
    CHECK(is_answered(&found[0], "A", acres(3918)));
}

static township_answer overlaps_of(const township_plat *plat, const char *text, township_overlap *to, size_t room) {
    bytes list = bytes_of(text);
    township_answer answer = township_overlaps(plat, list.at, list.length, to, room);

    drop(list);
    return answer;
}

static bool is_overlap(township_overlap found, uint32_t first, uint32_t second, uint64_t hundredths) {
    return found.first == first && found.second == second && found.hundredths == hundredths;
}

/*
 * Of the same nine tracts, the second A, E, and F have land of section 14: 640 acres are in the first two, and the
 * 160 acres of its northeast quarter in each of them and F. D is refused, and the record with three fields is no
 * tract.
 */
void has_overlaps(const township_plat *plat) {
    static const char apart[] = HEADING "A,\"sec. 14, N1/2\"\nB,\"sec. 14, S1/2\"\n";
    township_overlap none[4], found[4];

    memset(none, NEVER, sizeof none);
    memcpy(found, none, sizeof found);
    CHECK_ANSWER(overlaps_of(plat, mixed, found, 2), with_length(TOWNSHIP_NO_ROOM, 3));
    CHECK_ANSWER(overlaps_of(plat, "", found, 4), refused(81, 1));
    CHECK(memcmp(found, none, sizeof found) == 0);
    CHECK_ANSWER(overlaps_of(plat, mixed, found, 4), with_length(TOWNSHIP_ACCEPTED, 3));
    CHECK(is_overlap(found[0], 5, 9, 64000));
    CHECK(is_overlap(found[1], 5, 10, 16000));
    CHECK(is_overlap(found[2], 9, 10, 16000));
    CHECK(memcmp(&found[3], &none[3], sizeof *none) == 0);
    CHECK_ANSWER(overlaps_of(plat, apart, found, 0), with_length(TOWNSHIP_ACCEPTED, 0));
    CHECK_ANSWER(overlaps_of(plat, HEADING, found, 0), with_length(TOWNSHIP_ACCEPTED, 0));
}

void refuses_plat_of_lists(const township_plat *plat) {
    account none = blank();
    account found = none;
    township_tract_answer kept, answer;
    township_overlap overlap = {1, 2, 3};

    CHECK_ANSWER(account_of(plat, HEADING "A,sec. 14\n", COUNT(found.tracts), &found), bare(TOWNSHIP_NO_PLAT));
    CHECK(memcmp(&found, &none, sizeof found) == 0);
    memset(&kept, NEVER, sizeof kept);
    answer = kept;
    CHECK_ANSWER(each_of(plat, HEADING "A,sec. 14\n", &answer, 1), bare(TOWNSHIP_NO_PLAT));
    CHECK(memcmp(&answer, &kept, sizeof answer) == 0);
    CHECK_ANSWER(overlaps_of(plat, mixed, &overlap, 1), bare(TOWNSHIP_NO_PLAT));
    CHECK(is_overlap(overlap, 1, 2, 3));
}
