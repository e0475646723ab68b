/*
 * What the tests of packing share: checks, which are counted, and numbers that look random, the same in each run. A test
 * defines SEED, from which its numbers come, and includes a header of postgresql/src first.
 */
#include <stdio.h>
#include <stdlib.h>

#undef printf

static int passed;
static int failed;

static void check(bool holds, const char *what) {
    if (holds) {
        passed++;
    } else if (failed++ < 10) {
        printf("FAILED: %s\n", what);
    }
}

/* Prints `N passed, M failed`, and returns the exit status. */
static int checked(void) {
    printf("%d passed, %d failed\n", passed, failed);
    return failed != 0;
}

/* A number below `most`. */
static uint32_t chance(uint32_t most) {
    static uint64_t state = SEED;

    state = state * UINT64_C(6364136223846793005) + UINT64_C(1442695040888963407);
    return (uint32_t)(state >> 33) % most;
}
