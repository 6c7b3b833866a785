/* The calls that bench/calls.c times, as libraries of before document 02's Q-7 have them: six numbers in the place of the
   set. */

#ifndef SIX_NUMBERS_H
#define SIX_NUMBERS_H

#include <stddef.h>
#include <stdint.h>

#define NUMBERS uint32_t l, uint32_t q, uint32_t n, uint32_t dx, uint32_t dr, uint32_t mlen

uint32_t giophantus_keygen(NUMBERS, const uint8_t *random, size_t random_len, uint8_t *secret_key, size_t secret_key_len,
                           uint8_t *public_key, size_t public_key_len, uint32_t *work, size_t work_len, uint64_t *used,
                           uint64_t *dropped_groups, uint64_t *dropped_elements);
uint32_t giophantus_is_zero(NUMBERS, const uint8_t *secret_key, size_t secret_key_len, const uint8_t *public_key,
                            size_t public_key_len, uint32_t *work, size_t work_len, uint32_t *zero);
uint32_t giophantus_encrypt(NUMBERS, const uint8_t *public_key, size_t public_key_len, const uint8_t *message,
                            size_t message_len, const uint8_t *random, size_t random_len, uint8_t *ciphertext,
                            size_t ciphertext_len, uint32_t *work, size_t work_len, uint64_t *used,
                            uint64_t *dropped_groups);
uint32_t giophantus_add(NUMBERS, const uint8_t *a, size_t a_len, const uint8_t *b, size_t b_len, uint8_t *sum,
                        size_t sum_len);
uint32_t giophantus_decrypt(NUMBERS, const uint8_t *secret_key, size_t secret_key_len, const uint8_t *ciphertext,
                            size_t ciphertext_len, uint8_t *message, size_t message_len, uint32_t *work,
                            size_t work_len);

#endif
