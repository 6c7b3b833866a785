/* The library's calls beside the same calls in C over several rings.  Results are compared before
   anything is timed; entries take turns; each time is the minimum of all rounds.
   With -DLIBRARY_ONLY the library has no peers, addition, whose peers are in copies.c, is among the calls, and
   multiply_add, which earlier libraries lack, is not.  With -DSIX_NUMBERS besides, the library is one of before document
   02's Q-7, whose calls take six numbers in the place of the set and know no edition 2.  Those of before its Q-1 count no
   dropped groups, and those of before its Q-3 no dropped elements: their keygen and encrypt are given a last argument or
   two more than they take.  C itself doesn't define that; where the caller removes the arguments, as on x86-64 and
   AArch64, they are right all the same and leave the numbers alone.
   Usage: calls [TIMES.csv] */

#include <stdio.h>
#include <stdlib.h>
#include <string.h>

#ifdef SIX_NUMBERS
#include "six_numbers.h"
#else
#include "giophantus.h"
#endif
#include "timing.h"

/* The entries of the tables: the library first, then its peers. */
static const struct entry {
    const char *name;
    const struct ring *ring;
    int shared;
} entries[] = {
    {"library", NULL, 0},
#ifndef LIBRARY_ONLY
    {"FLINT", &ring_flint, 0},
    {"FLINT shared", &ring_flint, 1},
#ifdef HAVE_ZN_POLY
    {"zn_poly", &ring_zn_poly, 0},
    {"zn_poly shared", &ring_zn_poly, 1},
#endif
    {"C Karatsuba", &ring_karatsuba, 0},
    {"C Karatsuba shared", &ring_karatsuba, 1},
    {"C rows", &ring_rows, 0},
    {"naive C", &ring_naive, 0},
#endif
};
#define ENTRIES (sizeof entries / sizeof entries[0])

static const struct set sets[] = {SETS_BY_N, {2, 169894159, 64, 2, 2, 64, 1}};
#define SETS (sizeof sets / sizeof sets[0])

/* Arguments of the calls, and what an entry has written. */
static struct set chosen;
static const struct set *const set = &chosen;
static uint8_t random_octets[4 * MAX_OCTETS];
static uint8_t secret_key[MAX_N], public_key[MAX_OCTETS], message[MAX_N / 2], ciphertext[MAX_OCTETS];
static uint32_t words[MAX_ELEMENTS * MAX_N]; /* the ciphertext's */
static struct outputs {
    uint8_t secret_key[MAX_N], public_key[MAX_OCTETS], message[MAX_N / 2], ciphertext[MAX_OCTETS];
    uint32_t element[MAX_N];
    uint64_t used, dropped_groups, dropped_elements;
} out;
static uint32_t work[8 * MAX_N];
static size_t secret_length, public_length, message_length, ciphertext_length;

static void run_keygen(size_t i)
{
    if (entries[i].ring == NULL)
        must(set, giophantus_keygen(SET, random_octets, sizeof random_octets, out.secret_key, secret_length,
                                    out.public_key, public_length, work, 8 * set->n, &out.used, &out.dropped_groups,
                                    &out.dropped_elements));
    else
        out.used = peer_keygen(entries[i].ring, set, random_octets, out.secret_key, out.public_key, &out.dropped_groups,
                               &out.dropped_elements);
}

static void run_is_zero(size_t i)
{
    uint32_t zero;

    if (entries[i].ring == NULL)
        must(set, giophantus_is_zero(SET, secret_key, secret_length, public_key, public_length, work, 8 * set->n, &zero));
    else
        zero = (uint32_t)peer_is_zero(entries[i].ring, set, secret_key, public_key);
    out.used = zero;
}

static void run_encrypt(size_t i)
{
    if (entries[i].ring == NULL)
        must(set, giophantus_encrypt(SET, public_key, public_length, message, message_length, random_octets,
                                     sizeof random_octets, out.ciphertext, ciphertext_length, work, 8 * set->n, &out.used,
                                     &out.dropped_groups));
    else
        out.used = peer_encrypt(entries[i].ring, entries[i].shared, set, public_key, message, random_octets, out.ciphertext,
                                &out.dropped_groups);
}

static void run_decrypt(size_t i)
{
    if (entries[i].ring == NULL)
        must(set, giophantus_decrypt(SET, secret_key, secret_length, ciphertext, ciphertext_length, out.message,
                                     message_length, work, 8 * set->n));
    else
        peer_decrypt(entries[i].ring, set, secret_key, ciphertext, out.message);
}

#ifdef LIBRARY_ONLY
static void run_add(size_t i)
{
    (void)i;
    must(set, giophantus_add(SET, ciphertext, ciphertext_length, ciphertext, ciphertext_length, out.ciphertext,
                             ciphertext_length));
}
#else
/* a * b + c of the ciphertext's first three elements; the third is copied first, since the result takes its place. */
static void run_multiply_add(size_t i)
{
    const uint32_t *a = words, *b = words + set->n, *c = words + 2 * set->n;

    memcpy(out.element, c, set->n * sizeof *c);
    if (entries[i].ring == NULL)
        must(set, giophantus_multiply_add(SET, a, set->n, b, set->n, out.element, set->n));
    else
        peer_multiply_add(entries[i].ring, set, a, b, out.element);
}
#endif

static const struct call {
    const char *name;
    void (*run)(size_t);
    /* Only encryption has a way to share products. */
    int shares;
    uint32_t edition;
} calls[] = {
    {"keygen", run_keygen, 0, 1},
#ifndef SIX_NUMBERS
    {"keygen 2", run_keygen, 0, 2},
#endif
    {"is_zero", run_is_zero, 0, 1},
    {"encrypt", run_encrypt, 1, 1},
#ifdef LIBRARY_ONLY
    {"add", run_add, 0, 1},
#endif
    {"decrypt", run_decrypt, 0, 1},
#ifndef LIBRARY_ONLY
    {"multiply_add", run_multiply_add, 0, 1},
#endif
};
#define ROWS (sizeof calls / sizeof calls[0] * SETS)

static const struct call *call;

static void run(size_t entry)
{
    call->run(entry);
}

static int has_entry(size_t i)
{
    return !entries[i].shared || (call->shares && set->dx == set->dr);
}

static void run_once(size_t entry, struct outputs *outputs)
{
    memset(&out, 0xAA, sizeof out);
    run(entry);
    memcpy(outputs, &out, sizeof out);
}

static void draw_random_octets(void)
{
    size_t i;

    for (i = 0; i < sizeof random_octets; i++)
        random_octets[i] = (uint8_t)(number() >> 56);
}

/* Every entry's results have to be the library's, on several random octets. */
static void check_equal(int times)
{
    static struct outputs wanted, got;
    size_t i;

    while (times-- > 0) {
        draw_random_octets();
        run_once(0, &wanted);
        for (i = 1; i < ENTRIES; i++) {
            if (!has_entry(i))
                continue;
            run_once(i, &got);
            if (memcmp(&wanted, &got, sizeof got) != 0) {
                fprintf(stderr, "calls: %s: ", call->name);
                fail(set, entries[i].name);
            }
        }
    }
}

/* Keys, a message and its ciphertext, made by the library, and the ciphertext's words. */
static void prepare(void)
{
    size_t i;
    uint32_t unused;

    secret_length = 2 * small_octets(set);
    public_length = elements(set->dx) * element_octets(set);
    message_length = (set->mlen + 7) / 8;
    ciphertext_length = elements(set->dx + set->dr) * element_octets(set);
    draw_random_octets();
    run_keygen(0);
    memcpy(secret_key, out.secret_key, secret_length);
    memcpy(public_key, out.public_key, public_length);
    for (i = 0; i < message_length; i++)
        message[i] = (uint8_t)(number() >> 56);
    unused = (8 - set->mlen % 8) % 8;
    if (unused != 0)
        message[message_length - 1] &= (uint8_t)(0xFF >> unused);
    run_encrypt(0);
    memcpy(ciphertext, out.ciphertext, ciphertext_length);
    peer_decode(set, ciphertext, words);
}

/* Starts the ring of each entry, once where entries share it; or ends them. */
static void for_each_ring(int start)
{
    size_t i;

    for (i = 1; i < ENTRIES; i++) {
        if (entries[i].ring == entries[i - 1].ring)
            continue;
        if (start)
            entries[i].ring->start(set->n, set->q);
        else
            entries[i].ring->end();
    }
}

/* The rows are the calls, and for each call the sets, in the call's edition. */
static void choose(size_t row)
{
    call = &calls[row / SETS];
    chosen = sets[row % SETS];
    chosen.edition = call->edition;
}

static void enter(size_t row)
{
    choose(row);
    for_each_ring(1);
    prepare();
    check_equal(set->n > 1201 ? 1 : 3);
}

static void leave(void)
{
    for_each_ring(0);
}

int main(int argc, char **argv)
{
    static struct row rows[ROWS];
    const struct table table = {ROWS, ENTRIES, rows, enter, leave, run};
    size_t row, i;

    for (row = 0; row < ROWS; row++) {
        choose(row);
        rows[row].call = call->name;
        rows[row].set = &sets[row % SETS];
        for (i = 0; i < ENTRIES; i++) {
            rows[row].turns[i].name = entries[i].name;
            rows[row].turns[i].left_out = !has_entry(i);
        }
    }
    time_table(&table, argc > 1 ? argv[1] : NULL);
    return 0;
}
