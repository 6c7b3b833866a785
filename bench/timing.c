/* Times of several entries that take turns, their table, and a generator of test numbers. */

#include <stdlib.h>
#include <time.h>

#include "timing.h"

/* A slow entry leaves the turns after this time. */
#define MOST_SECONDS 10.0
/* A fast one is repeated until it takes this long. */
#define LEAST_SECONDS 2e-4

/* The processor time of this thread: another program's turn on the processor doesn't count. */
static double now(void)
{
    struct timespec t;

    clock_gettime(CLOCK_THREAD_CPUTIME_ID, &t);
    return (double)t.tv_sec + 1e-9 * (double)t.tv_nsec;
}

static double seconds(void (*run)(size_t), size_t entry, size_t repeats)
{
    double start = now();
    size_t k;

    for (k = 0; k < repeats; k++)
        run(entry);
    return (now() - start) / (double)repeats;
}

/* How often an entry is run in one turn; a first run warms it up. */
static size_t repeats_of(void (*run)(size_t), size_t entry)
{
    size_t repeats = 1;

    run(entry);
    while (seconds(run, entry, repeats) * (double)repeats < LEAST_SECONDS)
        repeats *= 2;
    return repeats;
}

static void take_turn(void (*run)(size_t), size_t entry, size_t repeats, struct turn *turn)
{
    double time = seconds(run, entry, repeats);

    if (turn->rounds == 0 || time < turn->best)
        turn->best = time;
    turn->spent += time * (double)repeats;
    turn->rounds++;
}

static void take_turns(size_t count, void (*run)(size_t), struct turn *turns)
{
    size_t repeats[MOST_ENTRIES] = {0}, i;
    int round;

    for (i = 0; i < count; i++)
        if (!turns[i].left_out && turns[i].spent < MOST_SECONDS)
            repeats[i] = repeats_of(run, i);
    for (round = 0; round < ROUNDS; round++)
        for (i = 0; i < count; i++)
            if (repeats[i] != 0 && turns[i].spent < MOST_SECONDS)
                take_turn(run, i, repeats[i], &turns[i]);
}

static void take_runs(const struct table *table)
{
    size_t row;
    int run;

    for (run = 1; run <= RUNS; run++) {
        fprintf(stderr, "run %d of %d\n", run, RUNS);
        for (row = 0; row < table->count; row++) {
            table->enter(row);
            take_turns(table->entries, table->run, table->rows[row].turns);
            table->leave();
        }
    }
}

static void print_head(size_t count, const struct turn *turns)
{
    size_t i;

    printf("microseconds, the least of %d runs of %d rounds, or of as many as are said behind a row; in brackets the %s's\n"
           "time as a multiple of that entry's\n\n%-35s %11s",
           RUNS, ROUNDS, turns[0].name, "call, n, l, octets of q", turns[0].name);
    for (i = 1; i < count; i++)
        printf(" %20s", turns[i].name);
    printf("\n");
}

static void print_row(const struct row *row, size_t count)
{
    const struct turn *turns = row->turns;
    const struct set *s = row->set;
    size_t i;

    printf("%-12s %4u, %2u, %u%-11s %11.3f", row->call, s->n, s->l, qlen(s), s->dx == 2 ? ", degrees 2" : "",
           1e6 * turns[0].best);
    for (i = 1; i < count; i++)
        if (turns[i].left_out)
            printf(" %20s", "");
        else
            printf(" %11.3f (%6.2f)", 1e6 * turns[i].best, turns[0].best / turns[i].best);
    for (i = 0; i < count; i++)
        if (!turns[i].left_out && turns[i].rounds < RUNS * ROUNDS)
            printf("  %s: %d rounds", turns[i].name, turns[i].rounds);
    printf("\n");
}

static void write_row(FILE *file, const struct row *row, size_t count)
{
    const struct set *s = row->set;
    size_t i;

    for (i = 0; i < count; i++)
        if (!row->turns[i].left_out)
            fprintf(file, "%s,%s,%u,%u,%u,%u,%u,%d,%.6g\n", row->call, row->turns[i].name, s->l, s->q, s->n, s->dx,
                    s->dr, row->turns[i].rounds, row->turns[i].best);
}

static void write_times(const struct table *table, const char *name)
{
    FILE *file = fopen(name, "w");
    size_t row;

    if (file != NULL) {
        fprintf(file, "call,entry,l,q,n,dx,dr,rounds,seconds\n");
        for (row = 0; row < table->count; row++)
            write_row(file, &table->rows[row], table->entries);
    }
    if (file == NULL || fclose(file) != 0) {
        perror(name);
        exit(1);
    }
}

void time_table(const struct table *table, const char *file)
{
    size_t row;

    take_runs(table);
    print_head(table->entries, table->rows[0].turns);
    for (row = 0; row < table->count; row++)
        print_row(&table->rows[row], table->entries);
    if (file != NULL)
        write_times(table, file);
}

void fail(const struct set *set, const char *what)
{
    fprintf(stderr, "bench: %s at n %u\n", what, set->n);
    exit(1);
}

uint64_t number(void)
{
    static uint64_t state = 1;
    uint64_t z = state += 0x9E3779B97F4A7C15u;

    z = (z ^ z >> 30) * 0xBF58476D1CE4E5B9u;
    z = (z ^ z >> 27) * 0x94D049BB133111EBu;
    return z ^ z >> 31;
}
