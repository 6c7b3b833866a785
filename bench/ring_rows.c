/* Products by rows in plain C: four products of 62 bits are added up in 64 bits, cut into two parts,
   and reduced once at the end.  For n up to 4096 and 16 products a sum's parts stay below 2^64. */

#include <stdlib.h>
#include <string.h>

#include "ring.h"

#define CUT 42

static uint32_t n, q;
static uint32_t *slots[SLOTS];
static uint64_t *low[SUMS], *high[SUMS];

static void start(uint32_t n_, uint32_t q_)
{
    int i;

    n = n_;
    q = q_;
    for (i = 0; i < SLOTS; i++)
        slots[i] = calloc(n + 3, sizeof *slots[i]);
    for (i = 0; i < SUMS; i++) {
        low[i] = calloc(2 * n + 3, sizeof *low[i]);
        high[i] = calloc(2 * n + 3, sizeof *high[i]);
    }
}

static void end(void)
{
    int i;

    for (i = 0; i < SLOTS; i++)
        free(slots[i]);
    for (i = 0; i < SUMS; i++) {
        free(low[i]);
        free(high[i]);
    }
}

/* Three zeros follow the words, so that the last row may have fewer than four factors. */
static void load(int slot, const uint32_t *words)
{
    memcpy(slots[slot], words, n * sizeof *words);
}

/* Row i adds x[i .. i + 3] times y, where y is read backwards by up to three places: its front is
   padded by a copy. */
static void mul_add(int sum, int a, int b)
{
    static uint32_t padded[MAX_N + 6];
    const uint32_t *x = slots[a];
    const uint32_t *y = padded + 3;
    uint32_t i, k;

    memcpy(padded + 3, slots[b], n * sizeof *padded);
    memset(padded + 3 + n, 0, 3 * sizeof *padded);
    for (i = 0; i < n; i += 4) {
        const uint64_t x0 = x[i], x1 = x[i + 1], x2 = x[i + 2], x3 = x[i + 3];
        uint64_t *restrict lo = low[sum] + i, *restrict hi = high[sum] + i;

        for (k = 0; k < n + 3; k++) {
            const uint32_t *at = y + k;
            uint64_t s = x0 * at[0] + x1 * *(at - 1) + x2 * *(at - 2) + x3 * *(at - 3);

            lo[k] += s & (((uint64_t)1 << CUT) - 1);
            hi[k] += s >> CUT;
        }
    }
}

static void take(int sum, uint32_t *words)
{
    const uint64_t power = ((uint64_t)1 << CUT) % q;
    uint32_t i;

    for (i = 0; i < n; i++) {
        uint64_t lo = low[sum][i] + low[sum][i + n];
        uint64_t hi = high[sum][i] + high[sum][i + n];

        words[i] = (uint32_t)((hi % q * power + lo) % q);
    }
    memset(low[sum], 0, (2 * n + 3) * sizeof *low[sum]);
    memset(high[sum], 0, (2 * n + 3) * sizeof *high[sum]);
}

const struct ring ring_rows = {"C rows", start, end, load, mul_add, take};
