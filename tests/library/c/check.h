/*
 * Counts checks, and shows those that fail. Only the main thread checks: the results of another thread are kept,
 * and checked after that thread has ended.
 */
#ifndef CHECK_H
#define CHECK_H

#include <inttypes.h>
#include <stdbool.h>
#include <stdio.h>

#include "township.h"

/* Counts a condition, and shows it if it does not hold. */
#define CHECK(condition) check((condition), #condition, __FILE__, __LINE__)

/* Counts a comparison of two answers, field by field, and shows both if they differ. */
#define CHECK_ANSWER(got, wanted) check_answer((got), (wanted), #got, __FILE__, __LINE__)

void check(bool holds, const char *what, const char *file, int line);
void check_answer(township_answer got, township_answer wanted, const char *what, const char *file, int line);

/* Whether two answers are the same in each field, reserved ones too. */
bool same_answer(township_answer a, township_answer b);

/* Prints `N passed, M failed`, and returns the exit status. */
int checked(void);

#endif
