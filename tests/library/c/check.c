#include "check.h"

static unsigned long passed;
static unsigned long failed;

void check(bool holds, const char *what, const char *file, int line) {
    if (holds) {
        passed++;
        return;
    }
    failed++;
    printf("FAILED: %s:%d: %s\n", file, line, what);
}

bool same_answer(township_answer a, township_answer b) {
    return a.verdict == b.verdict && a.number == b.number && a.at == b.at && a.inner_number == b.inner_number &&
           a.inner_at == b.inner_at && a.line == b.line && a.column == b.column && a.reserved == b.reserved &&
           a.hundredths == b.hundredths && a.length == b.length;
}

static void show(const char *title, township_answer a) {
    printf("  %s: verdict %" PRIu32 ", %" PRIu32 " at %" PRIu32 ", inner %" PRIu32 " at %" PRIu32 ", %" PRIu32
           ":%" PRIu32 ", reserved %" PRIu32 ", hundredths %" PRIu64 ", length %" PRIu64 "\n",
           title, a.verdict, a.number, a.at, a.inner_number, a.inner_at, a.line, a.column, a.reserved,
           a.hundredths, a.length);
}

void check_answer(township_answer got, township_answer wanted, const char *what, const char *file, int line) {
    bool same = same_answer(got, wanted);

    check(same, what, file, line);
    if (!same) {
        show("got", got);
        show("wanted", wanted);
    }
}

int checked(void) {
    printf("%lu passed, %lu failed\n", passed, failed);
    return failed != 0 || passed == 0;
}
