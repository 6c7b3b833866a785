/* Times of several entries that take turns, their table, and a generator of test numbers. */

#ifndef TIMING_H
#define TIMING_H

#include <stddef.h>
#include <stdint.h>
#include <stdio.h>

#include "peer.h"

#ifndef RUNS
#define RUNS 3
#endif
#define ROUNDS 20
#define MOST_ENTRIES 16

/* An entry of a row: its least processor time in seconds, over how many rounds, and all that they took. */
struct turn {
    const char *name;
    int left_out;
    double best, spent;
    int rounds;
};

/* A call with a set; every row of a table has the same entries. */
struct row {
    const char *call;
    const struct set *set;
    struct turn turns[MOST_ENTRIES];
};

struct table {
    size_t count, entries;
    struct row *rows;
    /* Prepares a row and checks that its entries agree; afterwards the row is left. */
    void (*enter)(size_t row);
    void (*leave)(void);
    void (*run)(size_t entry);
};

/* Takes RUNS runs through all rows, far apart so that a busy time of the machine spoils one run only; in each, the
   entries that aren't left out take turns for ROUNDS rounds, slow ones for fewer.  Prints the times, with the
   first entry's as a multiple of each other one's, and writes them to a file, if one is named. */
void time_table(const struct table *table, const char *file);

/* Ends the program and says what went wrong with a set. */
void fail(const struct set *set, const char *what);

/* A call of the library must not be refused.  In place, since it is timed with the call. */
static inline void must(const struct set *set, uint32_t answer)
{
    if (answer != 0)
        fail(set, "the library refuses");
}

/* Any number (splitmix64). */
uint64_t number(void);

#endif
