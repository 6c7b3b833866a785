/* Products in R_q, polynomials below degree n with t^n = 1, as each peer of the library makes them.
   A peer has numbered slots for factors and numbered sums of products; a sum is folded modulo
   t^n - 1 and q only when it is read.  To add a peer, write these functions and list it in calls.c. */

#ifndef RING_H
#define RING_H

#include <stdint.h>

#define MAX_N 4096
#define SLOTS 16
#define SUMS 16

struct ring {
    const char *name;
    /* Prepares slots and sums for n and q; every sum is zero. */
    void (*start)(uint32_t n, uint32_t q);
    void (*end)(void);
    /* Puts n words below q into a slot. */
    void (*load)(int slot, const uint32_t *words);
    /* Adds the product of two slots to a sum. */
    void (*mul_add)(int sum, int a, int b);
    /* Reads a sum as n words below q, and makes it zero. */
    void (*take)(int sum, uint32_t *words);
};

extern const struct ring ring_flint, ring_karatsuba, ring_rows, ring_naive;
#ifdef HAVE_ZN_POLY
extern const struct ring ring_zn_poly;
#endif

#endif
