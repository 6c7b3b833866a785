/* Sums and differences modulo q, below 2^31, of numbers below q.  The highest bit tells whether taking
   away has wrapped: that test is quicker than a comparison, several numbers at once. */

#ifndef MODULAR_H
#define MODULAR_H

#include <stdint.h>

static inline uint32_t add_mod(uint32_t a, uint32_t b, uint32_t q)
{
    uint32_t sum = a + b, less = sum - q;

    return less < 1u << 31 ? less : sum;
}

static inline uint32_t sub_mod(uint32_t a, uint32_t b, uint32_t q)
{
    uint32_t difference = a - b;

    return difference < 1u << 31 ? difference : difference + q;
}

#endif
