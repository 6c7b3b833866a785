/* Products by the definition, reduced in every step. */

#include <stdlib.h>
#include <string.h>

#include "ring.h"

static uint32_t n, q;
static uint32_t *slots[SLOTS], *sums[SUMS];

static void start(uint32_t n_, uint32_t q_)
{
    int i;

    n = n_;
    q = q_;
    for (i = 0; i < SLOTS; i++)
        slots[i] = calloc(n, sizeof *slots[i]);
    for (i = 0; i < SUMS; i++)
        sums[i] = calloc(n, sizeof *sums[i]);
}

static void end(void)
{
    int i;

    for (i = 0; i < SLOTS; i++)
        free(slots[i]);
    for (i = 0; i < SUMS; i++)
        free(sums[i]);
}

static void load(int slot, const uint32_t *words)
{
    memcpy(slots[slot], words, n * sizeof *words);
}

static void mul_add(int sum, int a, int b)
{
    const uint32_t *x = slots[a], *y = slots[b];
    uint32_t *s = sums[sum];
    uint32_t i, j;

    for (i = 0; i < n; i++) {
        for (j = 0; j < n - i; j++)
            s[i + j] = (uint32_t)((s[i + j] + (uint64_t)x[i] * y[j]) % q);
        for (; j < n; j++)
            s[i + j - n] = (uint32_t)((s[i + j - n] + (uint64_t)x[i] * y[j]) % q);
    }
}

static void take(int sum, uint32_t *words)
{
    memcpy(words, sums[sum], n * sizeof *words);
    memset(sums[sum], 0, n * sizeof *words);
}

const struct ring ring_naive = {"naive C", start, end, load, mul_add, take};
