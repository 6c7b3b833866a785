/* The calls of documents 01 and 02 in plain C over any of the rings of ring.h: what the library is measured
   against.  Inputs are trusted; nothing is refused. */

#ifndef PEER_H
#define PEER_H

#include <stddef.h>
#include <stdint.h>

#include "ring.h"

#define MAX_ELEMENTS 15
#define MAX_OCTETS ((size_t)MAX_ELEMENTS * MAX_N * 4)

struct set {
    uint32_t l, q, n, dx, dr, mlen, edition;
};

/* The set that is called `set`, as the calls of the library take it. */
#ifdef SIX_NUMBERS
#define SET set->l, set->q, set->n, set->dx, set->dr, set->mlen
#else
#define SET ((giophantus_set){set->l, set->q, set->n, set->dx, set->dr, set->mlen, set->edition})
#endif

/* A set for each n of the tables. */
#define SETS_BY_N                                                                                              \
    {16, 2147483647, 8, 1, 1, 32, 1}, {16, 2147483647, 32, 1, 1, 128, 1}, {4, 467424413, 64, 1, 1, 128, 1},    \
        {4, 467424413, 256, 1, 1, 512, 1}, {4, 467424413, 601, 1, 1, 1202, 1},                                 \
        {4, 467424413, 1201, 1, 1, 2402, 1}, {4, 973190461, 1733, 1, 1, 3466, 1},                              \
        {4, 1665292879, 2267, 1, 1, 4534, 1}, {2, 100679693, 4096, 1, 1, 4096, 1}

/* Lengths in octets, monomials and bits of an accepted set. */
size_t elements(uint32_t degree);
size_t small_octets(const struct set *s);
size_t element_octets(const struct set *s);
uint32_t qlen(const struct set *s);
uint32_t small_bits(const struct set *s);

/* The ring has been started with the set's n and q.  Keygen and encrypt answer the octets used, and write how many
   groups were dropped; keygen also writes how many elements were. */
uint64_t peer_keygen(const struct ring *r, const struct set *s, const uint8_t *random, uint8_t *secret_key,
                     uint8_t *public_key, uint64_t *dropped_groups, uint64_t *dropped_elements);
int peer_is_zero(const struct ring *r, const struct set *s, const uint8_t *secret_key, const uint8_t *public_key);
/* Shared: 6 products for 9 (21 for 36), for dX = dr. */
uint64_t peer_encrypt(const struct ring *r, int shared, const struct set *s, const uint8_t *public_key,
                      const uint8_t *message, const uint8_t *random, uint8_t *ciphertext, uint64_t *dropped_groups);
void peer_decrypt(const struct ring *r, const struct set *s, const uint8_t *secret_key, const uint8_t *ciphertext,
                  uint8_t *message);

/* c becomes a * b + c, as words. */
void peer_multiply_add(const struct ring *r, const struct set *s, const uint32_t *a, const uint32_t *b, uint32_t *c);

/* Ciphertexts, and small elements of n coefficients. */
void peer_add(const struct set *s, const uint8_t *a, const uint8_t *b, uint8_t *sum);
void peer_decode(const struct set *s, const uint8_t *octets, uint32_t *words);
void peer_encode(const struct set *s, const uint32_t *words, uint8_t *octets);
void peer_unpack(const struct set *s, const uint8_t *octets, uint32_t *words);
void peer_pack(const struct set *s, const uint32_t *words, uint8_t *octets);

#endif
