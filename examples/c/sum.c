/*
 * sum.c: two laboratories encrypt their counts, the ciphertexts are added unopened, the office decrypts the total.
 *
 * Build and run in this directory, after `tests/archive` at the repository's root:
 *
 *     make run
 *
 * or by hand: cc -std=c11 -Wall -Wextra -Wpedantic -I../../include sum.c ../../target/staticlib/libgiophantus.a -o sum
 */

#include <inttypes.h>
#include <stdio.h>
#include <stdlib.h>

#include "example.h"
#include "giophantus.h"

/* The set: four counts of 0 to 15 in a message, and room for 819 summands. An edition left out is 0, and refused. */
#define N 4u
#define COUNTS 4u /* mlen divided by the 4 bits of a count */
static const giophantus_set set = {
    .l = 16, .q = 2147483647, .n = N, .dx = 1, .dr = 1, .mlen = 4 * COUNTS, .edition = 1};

/* More than each step here uses: 36 for keys (52 in edition 2) and 60 for a ciphertext, 4 more for each group that is
   dropped, and 2 more for each element that is. */
#define RANDOM_OCTETS 128u

static void *buffer(uint64_t count, size_t size) {
    /* One element at least, since a buffer of length 0 needs a pointer that is not null. */
    void *got = calloc((size_t)count + 1, size);
    if (got == NULL) {
        fputs("no memory\n", stderr);
        exit(EXIT_FAILURE);
    }
    return got;
}

/* Octets that are the same on every run, so that the example prints the same. They are not random: a real program
   takes its octets from the operating system and never uses one twice. */
static void fixed_octets(uint32_t start, uint8_t octets[RANDOM_OCTETS]) {
    uint32_t x = start;
    for (size_t i = 0; i < RANDOM_OCTETS; i++) {
        x = x * 1664525u + 1013904223u;
        octets[i] = (uint8_t)(x >> 24);
    }
}

/* A message from counts: a small element whose coefficients past mlen are zero. */
static void message_from_counts(const uint32_t counts[COUNTS], uint8_t *message, size_t message_len) {
    uint32_t words[N] = {0};
    uint8_t octets[N / 2] = {0}; /* N coefficients of 4 bits */
    for (size_t i = 0; i < COUNTS; i++)
        words[i] = counts[i];
    accepted("message", giophantus_small_to_octets(set, words, N, octets, sizeof octets));
    for (size_t i = 0; i < message_len; i++)
        message[i] = octets[i];
}

static void print_counts(const char *whose, const uint8_t *message, size_t message_len) {
    uint32_t words[N];
    uint8_t octets[N / 2] = {0};
    for (size_t i = 0; i < message_len; i++)
        octets[i] = message[i];
    accepted("counts", giophantus_small_from_octets(set, octets, sizeof octets, words, N));
    printf("%-13s", whose);
    for (size_t i = 0; i < COUNTS; i++)
        printf(" %2" PRIu32, words[i]);
    putchar('\n');
}

int main(void) {
    static const uint32_t counts[2][COUNTS] = {{3, 0, 7, 1}, {2, 5, 4, 0}};
    uint32_t bound = 0, headroom = 0, zero = 0;
    uint64_t secret_len = 0, public_len = 0, message_len = 0, ciphertext_len = 0, work_len = 0;
    uint64_t used = 0, groups = 0, elements = 0; /* random octets used; groups and elements dropped */
    uint8_t random[RANDOM_OCTETS];

    accepted("limits", giophantus_limits(set, &bound, &headroom));
    accepted("lengths", giophantus_lengths(set, &secret_len, &public_len, &message_len, &ciphertext_len, &work_len));
    printf("bound %" PRIu32 ", headroom %" PRIu32 " summands\n", bound, headroom);

    uint8_t *secret_key = buffer(secret_len, 1);
    uint8_t *public_key = buffer(public_len, 1);
    uint8_t *message = buffer(message_len, 1);
    uint8_t *ciphertext[2] = {buffer(ciphertext_len, 1), buffer(ciphertext_len, 1)};
    uint8_t *total = buffer(ciphertext_len, 1);
    uint32_t *work = buffer(work_len, sizeof *work);

    fixed_octets(1, random);
    accepted("keygen", giophantus_keygen(set, random, sizeof random, secret_key, secret_len, public_key, public_len,
                                         work, work_len, &used, &groups, &elements));
    accepted("is_zero", giophantus_is_zero(set, secret_key, secret_len, public_key, public_len, work, work_len, &zero));
    printf("keys from %" PRIu64 " octets; dropped: groups %" PRIu64 ", elements %" PRIu64 "\n", used, groups,
           elements);
    printf("the secret key is a zero of the public key: %s\n", zero ? "yes" : "no");

    for (uint32_t i = 0; i < 2; i++) {
        message_from_counts(counts[i], message, message_len);
        print_counts(i == 0 ? "laboratory 1" : "laboratory 2", message, message_len);
        fixed_octets(2 + i, random);
        accepted("encrypt", giophantus_encrypt(set, public_key, public_len, message, message_len, random,
                                               sizeof random, ciphertext[i], ciphertext_len, work, work_len, &used,
                                               &groups));
    }

    accepted("add", giophantus_add(set, ciphertext[0], ciphertext_len, ciphertext[1], ciphertext_len, total,
                                   ciphertext_len));
    accepted("decrypt", giophantus_decrypt(set, secret_key, secret_len, total, ciphertext_len, message, message_len,
                                           work, work_len));
    print_counts("total", message, message_len);

    /* A refusal: a ciphertext that lost its last octet. The total keeps its old contents. */
    printf("a short ciphertext: refusal %" PRIu32 "\n",
           giophantus_add(set, ciphertext[0], ciphertext_len, ciphertext[1], ciphertext_len - 1, total, ciphertext_len));

    free(secret_key);
    free(public_key);
    free(message);
    free(ciphertext[0]);
    free(ciphertext[1]);
    free(total);
    free(work);
    return 0;
}
