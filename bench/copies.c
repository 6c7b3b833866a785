/* Addition and the conversions beside the same in plain C (as every peer of calls.c has it) and beside memcpy, of
   the octets and of the words.  Results are compared before anything is timed; entries take turns.
   One ciphertext is taken again and again, so that it may lie in the first-level cache; "adds", "decodes" and "encodes"
   take a run of 64 ciphertexts, one after the other, each in its own buffers.
   Usage: copies [TIMES.csv] */

#include <stdio.h>
#include <stdlib.h>
#include <string.h>

#include "giophantus.h"
#include "timing.h"

/* Every n with four octets a coefficient, then three octets, also at the largest n that has them, and other l. */
static const struct set sets[] = {
    SETS_BY_N,
    {2, 8659219, 1201, 1, 1, 1201, 1},
    {2, 16777213, 1671, 1, 1, 1671, 1},
    {8, 33768533, 64, 1, 1, 192, 1},
    {8, 2147483647, 510, 1, 1, 1530, 1},
    {16, 2147483629, 115, 1, 1, 460, 1},
};
#define SETS (sizeof sets / sizeof sets[0])

/* The ciphertexts of a run, and the words of as many; every set here has degrees 1. */
#define RUN 64
#define RUN_WORDS ((size_t)RUN * 6 * MAX_N)

static const struct set *set;
static uint8_t octets[4 * RUN_WORDS], other[4 * RUN_WORDS], sums[4 * RUN_WORDS], out_octets[4 * RUN_WORDS];
static uint32_t words[RUN_WORDS], out_words[RUN_WORDS];
/* The lengths of one ciphertext or small element, and how many there are. */
static size_t octets_length, words_length, count;

static void library_add(size_t i)
{
    must(set, giophantus_add(SET, octets + i * octets_length, octets_length, other + i * octets_length, octets_length,
                             out_octets + i * octets_length, octets_length));
}

static void library_decode(size_t i)
{
    must(set, giophantus_ciphertext_from_octets(SET, octets + i * octets_length, octets_length, out_words + i * words_length, words_length));
}

static void library_encode(size_t i)
{
    must(set, giophantus_ciphertext_to_octets(SET, words + i * words_length, words_length, out_octets + i * octets_length, octets_length));
}

static void library_unpack(size_t i)
{
    must(set, giophantus_small_from_octets(SET, octets + i * octets_length, octets_length, out_words + i * words_length, words_length));
}

static void library_pack(size_t i)
{
    must(set, giophantus_small_to_octets(SET, words + i * words_length, words_length, out_octets + i * octets_length, octets_length));
}

static void plain_add(size_t i)
{
    peer_add(set, octets + i * octets_length, other + i * octets_length, out_octets + i * octets_length);
}

static void plain_decode(size_t i)
{
    peer_decode(set, octets + i * octets_length, out_words + i * words_length);
}

static void plain_encode(size_t i)
{
    peer_encode(set, words + i * words_length, out_octets + i * octets_length);
}

static void plain_unpack(size_t i)
{
    peer_unpack(set, octets + i * octets_length, out_words + i * words_length);
}

static void plain_pack(size_t i)
{
    peer_pack(set, words + i * words_length, out_octets + i * octets_length);
}

static const struct call {
    const char *name;
    void (*library)(size_t i);
    void (*plain)(size_t i);
    /* The octets that have to come out; NULL where it is the words. */
    const uint8_t *wanted;
    /* Whether it is about a small element and not about ciphertexts; how many there are, and from which n on it is timed. */
    int small;
    size_t count, least_n;
} calls[] = {
    {"add", library_add, plain_add, sums, 0, 1, 0},
    {"adds", library_add, plain_add, sums, 0, RUN, 1201},
    {"decode", library_decode, plain_decode, NULL, 0, 1, 0},
    {"decodes", library_decode, plain_decode, NULL, 0, RUN, 1201},
    {"encode", library_encode, plain_encode, octets, 0, 1, 0},
    {"encodes", library_encode, plain_encode, octets, 0, RUN, 1201},
    {"unpack", library_unpack, plain_unpack, NULL, 1, 1, 0},
    {"pack", library_pack, plain_pack, octets, 1, 1, 0},
};
#define CALLS (sizeof calls / sizeof calls[0])

/* The rows: a call with a set. */
static struct {
    const struct call *call;
    const struct set *set;
} pairs[CALLS * SETS];

static const struct call *call;
static void *(*volatile copy)(void *, const void *, size_t) = memcpy;

static const char *const names[] = {"library", "plain C", "memcpy of octets", "memcpy of words"};
#define ENTRIES (sizeof names / sizeof names[0])

static void run_one(size_t entry, size_t i)
{
    switch (entry) {
    case 0: call->library(i); break;
    case 1: call->plain(i); break;
    case 2: copy(out_octets + i * octets_length, octets + i * octets_length, octets_length); break;
    default: copy(out_words + i * words_length, words + i * words_length, 4 * words_length);
    }
}

static void run(size_t entry)
{
    size_t i;

    for (i = 0; i < count; i++)
        run_one(entry, i);
}

/* Words below the limit, and their octets by plain C. */
static void prepare_small(void)
{
    uint32_t b = small_bits(set);
    size_t i, k;

    words_length = set->n;
    octets_length = small_octets(set);
    memset(octets, 0, octets_length);
    for (i = 0; i < words_length; i++) {
        words[i] = (uint32_t)(number() % set->l);
        for (k = 0; k < b; k++)
            octets[(i * b + k) / 8] |= (uint8_t)((words[i] >> k & 1) << (i * b + k) % 8);
    }
}

static void prepare_ciphertext(void)
{
    uint32_t length = qlen(set);
    size_t i, k;

    words_length = elements(set->dx + set->dr) * set->n;
    octets_length = words_length * length;
    for (i = 0; i < count * words_length; i++) {
        uint32_t second = (uint32_t)(number() % set->q);

        words[i] = (uint32_t)(number() % set->q);
        for (k = 0; k < length; k++) {
            octets[i * length + k] = (uint8_t)(words[i] >> 8 * k);
            other[i * length + k] = (uint8_t)(second >> 8 * k);
            sums[i * length + k] = (uint8_t)(((uint64_t)words[i] + second) % set->q >> 8 * k);
        }
    }
}

static void check_equal(size_t entry)
{
    memset(out_octets, 0xAA, sizeof out_octets);
    memset(out_words, 0xAA, sizeof out_words);
    run(entry);
    if (call->wanted != NULL ? memcmp(out_octets, call->wanted, count * octets_length) != 0
                             : memcmp(out_words, words, 4 * count * words_length) != 0) {
        fprintf(stderr, "copies: %s: ", call->name);
        fail(set, names[entry]);
    }
}

static void enter(size_t row)
{
    call = pairs[row].call;
    set = pairs[row].set;
    count = call->count;
    if (call->small)
        prepare_small();
    else
        prepare_ciphertext();
    check_equal(0);
    check_equal(1);
}

static void leave(void)
{
}

int main(int argc, char **argv)
{
    static struct row rows[CALLS * SETS];
    struct table table = {0, ENTRIES, rows, enter, leave, run};
    size_t k, i, row = 0;

    for (k = 0; k < CALLS * SETS; k++)
        if (sets[k % SETS].n >= calls[k / SETS].least_n) {
            pairs[row].call = &calls[k / SETS];
            pairs[row].set = &sets[k % SETS];
            rows[row] = (struct row){.call = calls[k / SETS].name, .set = &sets[k % SETS]};
            for (i = 0; i < ENTRIES; i++)
                rows[row].turns[i].name = names[i];
            row++;
        }
    table.count = row;
    time_table(&table, argc > 1 ? argv[1] : NULL);
    return 0;
}
