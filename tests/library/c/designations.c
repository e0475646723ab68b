/* The calls that read and write the names of townships. */
#include <string.h>

#include "check.h"
#include "given.h"
#include "land.h"

#define COUNT(array) (sizeof(array) / sizeof *(array))

static const township_designation HERE = {2, TOWNSHIP_NORTH, 3, TOWNSHIP_WEST};

/* Something that no call writes. */
static const township_designation OTHER = {0xA5, 0xA5, 0xA5, 0xA5};

static township_answer read_township(const char *text, township_designation *township) {
    bytes given = bytes_of(text);
    township_answer answer = township_designation_read(given.at, given.length, township);

    drop(given);
    return answer;
}

static bool same_township(township_designation a, township_designation b) {
    return memcmp(&a, &b, sizeof a) == 0;
}

static void reads(const char *text, township_designation wanted) {
    township_designation township = OTHER;

    CHECK_ANSWER(read_township(text, &township), bare(TOWNSHIP_ACCEPTED));
    CHECK(same_township(township, wanted));
}

static void reads_spellings(void) {
    static const char *const spellings[] = {
        "T. 2 N., R. 3 W.", "T. 2 N., R. 3 W.,", "T2N R3W", "t2n r3w", "T2N-R3W", "T-2-N, R-3-W", "2N-3W", "2N3W", "2n/3w",
        "0020N 0030W", "0020N-0030W", "T. 02 N., R. 003 W.", "Twp. 2 N., Rge. 3 W.", "Township 2 North, Range 3 West",
        "TOWNSHIP TWO NORTH, RANGE THREE WEST", " 2\tN\r\n3 W ",
    };

    for (size_t i = 0; i < COUNT(spellings); i++) {
        reads(spellings[i], HERE);
    }
    reads("Township Twenty-five South, Range Thirty One East",
          (township_designation){25, TOWNSHIP_SOUTH, 31, TOWNSHIP_EAST});
    reads("0990S 0100E", (township_designation){99, TOWNSHIP_SOUTH, 10, TOWNSHIP_EAST});
}

static void refuses(const char *text, uint32_t number, uint32_t at) {
    township_designation township = OTHER;

    CHECK_ANSWER(read_township(text, &township), refused(number, at));
    CHECK(same_township(township, OTHER));
}

/* The place is that of the first token that no spelling has there, or the end of the text. */
static void refuses_to_read(void) {
    bytes most = padded("2N-3W", ' ', TOWNSHIP_DESCRIPTION_MOST);
    bytes long_text = padded("2N-3W", ' ', TOWNSHIP_DESCRIPTION_MOST + 1);
    township_designation township = OTHER;

    refuses("", 31, 0);
    refuses("T. 0 N., R. 3 W.", 31, 3);
    refuses("T. 100 N., R. 3 W.", 31, 3);
    refuses("T2 3W", 32, 3);
    refuses("T2N", 33, 3);
    refuses("T2NR3W", 32, 2);
    refuses("2N R3W", 33, 3);
    refuses("T2N R3", 34, 6);
    refuses("T. 2 N., R. 3 W., sec. 14, NE1/4;", 35, 18);
    /* With letters, four digits may be a register's or not. */
    refuses("T. 0020 N., R. 0030 W.", 31, 3);
    refuses("0022N 0030W", 31, 0);
    CHECK_ANSWER(township_designation_read(long_text.at, long_text.length, &township),
                 refused(36, TOWNSHIP_DESCRIPTION_MOST));
    CHECK(same_township(township, OTHER));
    CHECK_ANSWER(township_designation_read(most.at, most.length, &township), bare(TOWNSHIP_ACCEPTED));
    CHECK(same_township(township, HERE));
    drop(most);
    drop(long_text);
}

/* Whether a township is written in 16 to 18 bytes, and read back. */
static bool is_read_back(township_designation township) {
    uint8_t text[18];
    township_designation back = OTHER;
    township_answer answer = township_designation_text(&township, text, sizeof text);

    return answer.verdict == TOWNSHIP_ACCEPTED && answer.length >= 16 && answer.length <= 18 &&
           township_designation_read(text, answer.length, &back).verdict == TOWNSHIP_ACCEPTED &&
           same_township(township, back);
}

static void writes_each(void) {
    unsigned count = 0;

    for (unsigned code = 0; code < 99 * 99 * 4; code++) {
        count += is_read_back((township_designation){(uint8_t)(code / 396 + 1), code & 1, (uint8_t)(code / 4 % 99 + 1),
                                                     code >> 1 & 1});
    }
    CHECK(count == 99 * 99 * 4);
}

static void writes(void) {
    static const char wanted[] = "T. 2 N., R. 3 W.";
    const township_designation none[] = {{0, 0, 3, 1}, {100, 0, 3, 1}, {2, 2, 3, 1}, {2, 0, 0, 1}, {2, 0, 3, 2}};
    uint8_t text[sizeof wanted];
    township_answer answer;

    memset(text, NEVER, sizeof text);
    answer = township_designation_text(&HERE, text, sizeof wanted - 2);
    CHECK(answer.verdict == TOWNSHIP_NO_ROOM && answer.length == sizeof wanted - 1 && text[0] == NEVER);
    answer = township_designation_text(&HERE, text, sizeof text);
    CHECK(answer.verdict == TOWNSHIP_ACCEPTED && answer.length == sizeof wanted - 1);
    CHECK(memcmp(text, wanted, sizeof wanted - 1) == 0 && text[sizeof wanted - 1] == NEVER);
    for (size_t i = 0; i < COUNT(none); i++) {
        CHECK_ANSWER(township_designation_text(&none[i], text, sizeof text), bare(TOWNSHIP_NO_TOWNSHIP));
    }
}

void answers_designations(void) {
    reads_spellings();
    refuses_to_read();
    writes();
    writes_each();
}
