/* Products by FLINT's nmod_poly. */

#include <flint/nmod_poly.h>

#include "ring.h"

static uint32_t n;
static nmod_poly_t slots[SLOTS], sums[SUMS], product;

static void start(uint32_t n_, uint32_t q)
{
    int i;

    n = n_;
    for (i = 0; i < SLOTS; i++)
        nmod_poly_init2(slots[i], q, n);
    for (i = 0; i < SUMS; i++)
        nmod_poly_init2(sums[i], q, 2 * n);
    nmod_poly_init2(product, q, 2 * n);
}

static void end(void)
{
    int i;

    for (i = 0; i < SLOTS; i++)
        nmod_poly_clear(slots[i]);
    for (i = 0; i < SUMS; i++)
        nmod_poly_clear(sums[i]);
    nmod_poly_clear(product);
}

static void load(int slot, const uint32_t *words)
{
    nmod_poly_struct *p = slots[slot];
    uint32_t i;

    nmod_poly_fit_length(p, n);
    for (i = 0; i < n; i++)
        p->coeffs[i] = words[i];
    p->length = n;
    _nmod_poly_normalise(p);
}

static void mul_add(int sum, int a, int b)
{
    if (nmod_poly_is_zero(sums[sum])) {
        nmod_poly_mul(sums[sum], slots[a], slots[b]);
    } else {
        nmod_poly_mul(product, slots[a], slots[b]);
        nmod_poly_add(sums[sum], sums[sum], product);
    }
}

static void take(int sum, uint32_t *words)
{
    nmod_poly_struct *p = sums[sum];
    mp_limb_t q = p->mod.n;
    uint32_t i;

    for (i = 0; i < n; i++) {
        mp_limb_t low = (slong)i < p->length ? p->coeffs[i] : 0;
        mp_limb_t high = (slong)(i + n) < p->length ? p->coeffs[i + n] : 0;
        mp_limb_t x = low + high;

        words[i] = (uint32_t)(x >= q ? x - q : x);
    }
    nmod_poly_zero(p);
}

const struct ring ring_flint = {"FLINT", start, end, load, mul_add, take};
