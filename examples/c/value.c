/*
 * value.c: the zero test step by step. A public key of degree 1 is three ring elements, what x, y and 1 are multiplied by.
 * Its value at a secret key (u_x, u_y) takes two calls of giophantus_multiply_add, and is 0 where the two keys belong together.
 *
 * Built and run as sum.c is.
 */

#include <inttypes.h>
#include <stdio.h>
#include <string.h>

#include "example.h"
#include "giophantus.h"

/* The set: so small that the products can be checked on paper. */
#define Q 1459u
#define N 2u
static const giophantus_set set = {.l = 4, .q = Q, .n = N, .dx = 1, .dr = 1, .mlen = 4, .edition = 1};

/* Its lengths, as giophantus_lengths gives them. */
#define SECRET_KEY_OCTETS 2u
#define PUBLIC_KEY_OCTETS 12u
#define WORK_WORDS 16u

/* The words of the keys, and where each ring element begins. */
#define SECRET_KEY_WORDS (2 * N)
#define U_X 0u
#define U_Y N
#define PUBLIC_KEY_WORDS (3 * N)
#define OF_X 0u
#define OF_Y N
#define OF_1 (2 * N)

static void print_element(const char *name, const uint32_t words[N]) {
    printf("%-6s", name);
    for (size_t i = 0; i < N; i++)
        printf(" %4" PRIu32, words[i]);
    putchar('\n');
}

/* The value begins as what 1 is multiplied by, and gains the two products. */
static void value_at(const uint32_t *secret_key, const uint32_t *public_key, uint32_t value[N]) {
    memcpy(value, public_key + OF_1, N * sizeof *value);
    accepted("multiply_add", giophantus_multiply_add(set, public_key + OF_X, N, secret_key + U_X, N, value, N));
    accepted("multiply_add", giophantus_multiply_add(set, public_key + OF_Y, N, secret_key + U_Y, N, value, N));
}

/* The value at a secret key, and what giophantus_is_zero says of the two keys. */
static void zero_test(const uint32_t *secret_key, const uint32_t *public_key, const uint8_t *public_octets) {
    uint8_t secret_octets[SECRET_KEY_OCTETS];
    uint32_t value[N], work[WORK_WORDS], zero = 0;

    print_element("u_x", secret_key + U_X);
    print_element("u_y", secret_key + U_Y);
    value_at(secret_key, public_key, value);
    print_element("value", value);

    accepted("secret_key_to_octets", giophantus_secret_key_to_octets(set, secret_key, SECRET_KEY_WORDS, secret_octets,
                                                                     sizeof secret_octets));
    accepted("is_zero", giophantus_is_zero(set, secret_octets, sizeof secret_octets, public_octets, PUBLIC_KEY_OCTETS,
                                           work, WORK_WORDS, &zero));
    printf("giophantus_is_zero: %s\n", zero ? "yes" : "no");
}

static void refusals(const uint32_t *secret_key, const uint32_t *public_key, const uint8_t *public_octets) {
    /* u_y is 3, whose coefficient of t is zero. */
    static const uint8_t ends_in_zero[SECRET_KEY_OCTETS] = {0x09, 0x03};
    uint32_t work[WORK_WORDS], zero = 0;
    printf("a secret key that ends in zero: refusal %" PRIu32 "\n",
           giophantus_is_zero(set, ends_in_zero, sizeof ends_in_zero, public_octets, PUBLIC_KEY_OCTETS, work,
                              WORK_WORDS, &zero));

    /* A word of c is q. c keeps its old contents. */
    uint32_t c[N] = {1, Q};
    printf("a word of q in c: refusal %" PRIu32 "\n",
           giophantus_multiply_add(set, public_key + OF_X, N, secret_key + U_X, N, c, N));
    print_element("c", c);
}

int main(void) {
    /* Octets that are not random, so that the example prints the same: they give u_x = 1 + 2t and u_y = t, and 5 + 7t
       and 100 + t for x and y. The element 0x03 is 3, whose coefficient of t is zero: it is dropped. So is the group
       0xB3 0x05, which is 1459 and not below q. */
    static const uint8_t random[] = {0x09, 0x03, 0x04, 5, 0, 0xB3, 0x05, 7, 0, 100, 0, 1, 0};
    uint8_t secret_octets[SECRET_KEY_OCTETS], public_octets[PUBLIC_KEY_OCTETS];
    uint32_t secret_key[SECRET_KEY_WORDS], public_key[PUBLIC_KEY_WORDS], work[WORK_WORDS];
    uint64_t used = 0, groups = 0, elements = 0;

    accepted("keygen", giophantus_keygen(set, random, sizeof random, secret_octets, sizeof secret_octets,
                                         public_octets, sizeof public_octets, work, WORK_WORDS, &used, &groups,
                                         &elements));
    printf("keys from %" PRIu64 " octets; dropped: groups %" PRIu64 ", elements %" PRIu64 "\n", used, groups,
           elements);
    accepted("secret_key_from_octets", giophantus_secret_key_from_octets(set, secret_octets, sizeof secret_octets,
                                                                         secret_key, SECRET_KEY_WORDS));
    accepted("public_key_from_octets", giophantus_public_key_from_octets(set, public_octets, sizeof public_octets,
                                                                         public_key, PUBLIC_KEY_WORDS));
    puts("the public key, what x, y and 1 are multiplied by:");
    print_element("x", public_key + OF_X);
    print_element("y", public_key + OF_Y);
    print_element("1", public_key + OF_1);

    puts("its value at the secret key that was made with it:");
    zero_test(secret_key, public_key, public_octets);

    /* With 1 more in u_x the value gains what x is multiplied by. */
    puts("its value at another secret key:");
    secret_key[U_X] += 1;
    zero_test(secret_key, public_key, public_octets);

    refusals(secret_key, public_key, public_octets);
    return 0;
}
