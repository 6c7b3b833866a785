/* Products by Karatsuba over rows in plain C, the library's own way: both factors are padded with zeros to
   leaf * 2^levels coefficients and halved, where they stand, down to leaves of at most 80.  A leaf is multiplied
   by rows, eight in a pass and four in the last where no more are left, in 64 bits, and reduced once (Barrett). */

#include <string.h>

#include "modular.h"
#include "ring.h"

#define LEAF 80
#define PASS 8
#define CUT 42
/* The largest product of which LEAF fit 64 bits; others are added up in two parts. */
#define UNCUT (UINT64_MAX / LEAF)

struct modulus {
    uint32_t q;
    uint64_t reciprocal;
};

static uint32_t n, levels, padded;
static struct modulus modulus;
static uint32_t slots[SLOTS][MAX_N], sums[SUMS][MAX_N];
/* Above each word of a slot. */
static uint32_t limits[SLOTS];

static void start(uint32_t n_, uint32_t q)
{
    uint32_t leaf;

    n = n_;
    modulus.q = q;
    modulus.reciprocal = UINT64_MAX / q;
    for (levels = 0; n > (uint32_t)LEAF << levels; levels++)
        continue;
    leaf = (n + (1u << levels) - 1) >> levels;
    padded = leaf << levels;
}

static void end(void)
{
}

/* Factors below q are all that is asked for; the bits that occur tell small ones. */
static void load(int slot, const uint32_t *words)
{
    uint32_t bits = 0, i;

    for (i = 0; i < n; i++)
        bits |= words[i];
    limits[slot] = bits < modulus.q ? bits + 1 : modulus.q;
    memcpy(slots[slot], words, n * sizeof *words);
}

/* The quotient by the reciprocal is at most one too small. */
static uint32_t reduce(uint64_t s, struct modulus m)
{
    uint64_t quotient = (uint64_t)((unsigned __int128)s * m.reciprocal >> 64);
    uint32_t rest = (uint32_t)(s - quotient * m.q), less = rest - m.q;

    return less < 1u << 31 ? less : rest;
}

/* Four rows: the first is read three places on, each next one a place before. */
static uint64_t four(const uint32_t *factors, const uint64_t *row)
{
    return (uint64_t)factors[0] * (uint32_t)row[3] + (uint64_t)factors[1] * (uint32_t)row[2] +
           (uint64_t)factors[2] * (uint32_t)row[1] + (uint64_t)factors[3] * (uint32_t)row[0];
}

static void add_rows(uint64_t *restrict low, const uint32_t *factors, const uint64_t *restrict row, uint32_t length)
{
    uint32_t f[PASS], k;

    memcpy(f, factors, sizeof f);
    for (k = 0; k < length + PASS - 1; k++)
        low[k] += four(f, row + k + 4) + four(f + 4, row + k);
}

static void add_last_rows(uint64_t *restrict low, const uint32_t *factors, const uint64_t *restrict row,
                          uint32_t length)
{
    uint32_t f[PASS / 2], k;

    memcpy(f, factors, sizeof f);
    for (k = 0; k < length + PASS / 2 - 1; k++)
        low[k] += four(f, row + k + 4);
}

static void add_cut_rows(uint64_t *restrict low, uint64_t *restrict high, const uint32_t *factors,
                         const uint64_t *restrict row, uint32_t length)
{
    const uint64_t mask = ((uint64_t)1 << CUT) - 1;
    uint32_t f[PASS], k;

    memcpy(f, factors, sizeof f);
    for (k = 0; k < length + PASS - 1; k++) {
        uint64_t s = four(f, row + k + 4), t = four(f + 4, row + k);

        low[k] += (s & mask) + (t & mask);
        high[k] += (s >> CUT) + (t >> CUT);
    }
}

static void multiply_uncut(const uint32_t *factors, const uint64_t *row, uint32_t length, struct modulus m,
                           uint32_t *product)
{
    uint64_t low[2 * LEAF + PASS] = {0};
    uint32_t k;

    for (k = 0; k + PASS / 2 < length; k += PASS)
        add_rows(low + k, factors + k, row, length);
    if (k < length)
        add_last_rows(low + k, factors + k, row, length);
    for (k = 0; k < 2 * length; k++)
        product[k] = reduce(low[k], m);
}

static void multiply_cut(const uint32_t *factors, const uint64_t *row, uint32_t length, struct modulus m,
                         uint32_t *product)
{
    uint64_t low[2 * LEAF + PASS] = {0}, high[2 * LEAF + PASS] = {0};
    const uint64_t power = ((uint64_t)1 << CUT) % m.q;
    uint32_t k;

    for (k = 0; k < length; k += PASS)
        add_cut_rows(low + k, high + k, factors + k, row, length);
    for (k = 0; k < 2 * length; k++)
        product[k] = reduce(high[k] * power + low[k], m);
}

/* The row has seven zeros on either side, the factors have zeros behind them. */
static void multiply_leaf(const uint32_t *a, const uint32_t *b, uint32_t length, uint32_t limit, struct modulus m,
                          uint32_t *product)
{
    uint32_t factors[LEAF + PASS] = {0}, k;
    uint64_t row[LEAF + 2 * PASS] = {0};

    memcpy(factors, a, length * sizeof *factors);
    for (k = 0; k < length; k++)
        row[PASS - 1 + k] = b[k];
    if ((uint64_t)m.q * limit <= UNCUT)
        multiply_uncut(factors, row, length, m, product);
    else
        multiply_cut(factors, row, length, m, product);
}

static void add(uint32_t *restrict to, const uint32_t *restrict from, uint32_t length, uint32_t q)
{
    uint32_t k;

    for (k = 0; k < length; k++)
        to[k] = add_mod(to[k], from[k], q);
}

static void subtract(uint32_t *restrict to, const uint32_t *restrict from, uint32_t length, uint32_t q)
{
    uint32_t k;

    for (k = 0; k < length; k++)
        to[k] = sub_mod(to[k], from[k], q);
}

/* The sums of the halves stand where the product will come, until they are multiplied: their product goes to the
   free words, and what the products need goes behind it.  The second factor's coefficients are below the limit. */
static void multiply(const uint32_t *a, const uint32_t *b, uint32_t level, uint32_t length, uint32_t limit,
                     struct modulus m, uint32_t *product, uint32_t *free_words)
{
    const uint32_t half = length / 2;
    uint32_t *rest = free_words + length;

    if (level == 0) {
        multiply_leaf(a, b, length, limit, m, product);
        return;
    }
    memcpy(product, a, half * sizeof *a);
    add(product, a + half, half, m.q);
    memcpy(product + half, b, half * sizeof *b);
    add(product + half, b + half, half, m.q);
    multiply(product, product + half, level - 1, half, limit < m.q - limit ? 2 * limit : m.q, m, free_words, rest);
    multiply(a, b, level - 1, half, limit, m, product, rest);
    multiply(a + half, b + half, level - 1, half, limit, m, product + length, rest);
    subtract(free_words, product, length, m.q);
    subtract(free_words, product + length, length, m.q);
    add(product + half, free_words, length, m.q);
}

static void mul_add(int sum, int a, int b)
{
    static uint32_t words[2 * MAX_N], product[2 * MAX_N], free_words[2 * MAX_N];

    memcpy(words, slots[a], n * sizeof *words);
    memset(words + n, 0, (padded - n) * sizeof *words);
    memcpy(words + padded, slots[b], n * sizeof *words);
    memset(words + padded + n, 0, (padded - n) * sizeof *words);
    multiply(words, words + padded, levels, padded, limits[b], modulus, product, free_words);
    add(sums[sum], product, n, modulus.q);
    add(sums[sum], product + n, n, modulus.q);
}

static void take(int sum, uint32_t *words)
{
    memcpy(words, sums[sum], n * sizeof *words);
    memset(sums[sum], 0, n * sizeof *words);
}

const struct ring ring_karatsuba = {"C Karatsuba", start, end, load, mul_add, take};
