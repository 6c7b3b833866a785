/* Products by zn_poly. */

#include <stdlib.h>
#include <string.h>
#include <zn_poly/zn_poly.h>

#include "ring.h"

static uint32_t n;
static zn_mod_t mod;
static ulong *slots[SLOTS], *sums[SUMS], *product;

static void start(uint32_t n_, uint32_t q)
{
    int i;

    n = n_;
    zn_mod_init(mod, q);
    for (i = 0; i < SLOTS; i++)
        slots[i] = calloc(n, sizeof *slots[i]);
    for (i = 0; i < SUMS; i++)
        sums[i] = calloc(2 * n, sizeof *sums[i]);
    product = calloc(2 * n, sizeof *product);
}

static void end(void)
{
    int i;

    for (i = 0; i < SLOTS; i++)
        free(slots[i]);
    for (i = 0; i < SUMS; i++)
        free(sums[i]);
    free(product);
    zn_mod_clear(mod);
}

static void load(int slot, const uint32_t *words)
{
    uint32_t i;

    for (i = 0; i < n; i++)
        slots[slot][i] = words[i];
}

/* Sums stay unreduced: few products of numbers below 2^31 fit easily. */
static void mul_add(int sum, int a, int b)
{
    uint32_t i;

    zn_array_mul(product, slots[a], n, slots[b], n, mod);
    for (i = 0; i < 2 * n - 1; i++)
        sums[sum][i] += product[i];
}

static void take(int sum, uint32_t *words)
{
    uint32_t i;

    for (i = 0; i < n; i++)
        words[i] = (uint32_t)((sums[sum][i] + sums[sum][i + n]) % mod->m);
    memset(sums[sum], 0, 2 * n * sizeof *sums[sum]);
}

const struct ring ring_zn_poly = {"zn_poly", start, end, load, mul_add, take};
