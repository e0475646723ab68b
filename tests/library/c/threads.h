/* Calls the library from several threads at once. */
#ifndef THREADS_H
#define THREADS_H

#include "given.h"

/*
 * Calls every function from four threads at once, a number of rounds in each, on plats that differ, and checks
 * that each answer is the one that the plat gives without other threads.
 */
void call_from_threads(bytes notes, long rounds);

#endif
