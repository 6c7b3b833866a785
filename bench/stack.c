/* How much stack each call of the C interface uses: it is made on a thread whose stack is painted, and the deepest
   octet that changed is looked for.  Prints KiB; fails where a call uses more than LIMIT. */

#include <pthread.h>
#include <stdio.h>
#include <stdlib.h>
#include <string.h>
#include <sys/mman.h>

#include "giophantus.h"
#include "timing.h"

#define STACK ((size_t)1 << 20)
#define LIMIT ((size_t)256 << 10)
#define PAGE ((size_t)4096)
#define PAINT 0xA5

/* Moduli whose products are added up in one part and in two, and degrees 2 at the largest accepted n. */
static const struct set sets[] = {
    {4, 467424413, 64, 1, 1, 128, 1},
    {4, 2147483647, 64, 1, 1, 128, 1},
    {4, 467424413, 1201, 1, 1, 2402, 1},
    {4, 2147483647, 1201, 1, 1, 2402, 1},
    {2, 100679693, 4096, 1, 1, 4096, 1},
    {2, 2147483647, 4096, 1, 1, 4096, 1},
    {2, 169894159, 64, 2, 2, 64, 1},
    {2, 2147483647, 120, 2, 2, 120, 1},
};
#define SETS (sizeof sets / sizeof sets[0])

/* The arguments; a call's outputs are the inputs of later ones. */
static const struct set *set;
static uint8_t random_octets[4 * MAX_OCTETS], secret_key[MAX_N], public_key[MAX_OCTETS], message[MAX_N];
static uint8_t ciphertext[MAX_OCTETS], sum[MAX_OCTETS], decrypted[MAX_N];
static uint32_t words[MAX_ELEMENTS * MAX_N], small_words[2 * MAX_N], work[8 * MAX_N], bound, headroom, zero;
static uint64_t secret_length, public_length, message_length, ciphertext_length, work_length;
static uint64_t used, dropped_groups, dropped_elements;

static uint32_t check(void)
{
    return giophantus_check(SET);
}

static uint32_t limits(void)
{
    return giophantus_limits(SET, &bound, &headroom);
}

static uint32_t lengths(void)
{
    return giophantus_lengths(SET, &secret_length, &public_length, &message_length, &ciphertext_length, &work_length);
}

static uint32_t keygen(void)
{
    return giophantus_keygen(SET, random_octets, sizeof random_octets, secret_key, secret_length, public_key,
                             public_length, work, work_length, &used, &dropped_groups, &dropped_elements);
}

static uint32_t keygen_2(void)
{
    const struct set *first = set;
    struct set second = *set;
    uint32_t answer;

    second.edition = 2;
    set = &second;
    answer = keygen();
    set = first;
    return answer;
}

static uint32_t is_zero(void)
{
    return giophantus_is_zero(SET, secret_key, secret_length, public_key, public_length, work, work_length, &zero);
}

static uint32_t encrypt(void)
{
    return giophantus_encrypt(SET, public_key, public_length, message, message_length, random_octets,
                              sizeof random_octets, ciphertext, ciphertext_length, work, work_length, &used,
                              &dropped_groups);
}

static uint32_t add(void)
{
    return giophantus_add(SET, ciphertext, ciphertext_length, ciphertext, ciphertext_length, sum, ciphertext_length);
}

static uint32_t decrypt(void)
{
    return giophantus_decrypt(SET, secret_key, secret_length, ciphertext, ciphertext_length, decrypted, message_length,
                              work, work_length);
}

static uint32_t element_from_octets(void)
{
    return giophantus_element_from_octets(SET, public_key, element_octets(set), words, set->n);
}

static uint32_t element_to_octets(void)
{
    return giophantus_element_to_octets(SET, words, set->n, sum, element_octets(set));
}

static uint32_t small_from_octets(void)
{
    return giophantus_small_from_octets(SET, secret_key, small_octets(set), small_words, set->n);
}

static uint32_t small_to_octets(void)
{
    return giophantus_small_to_octets(SET, small_words, set->n, sum, small_octets(set));
}

static uint32_t secret_key_from_octets(void)
{
    return giophantus_secret_key_from_octets(SET, secret_key, secret_length, small_words, 2 * set->n);
}

static uint32_t secret_key_to_octets(void)
{
    return giophantus_secret_key_to_octets(SET, small_words, 2 * set->n, sum, secret_length);
}

static uint32_t public_key_from_octets(void)
{
    return giophantus_public_key_from_octets(SET, public_key, public_length, words, elements(set->dx) * set->n);
}

static uint32_t public_key_to_octets(void)
{
    return giophantus_public_key_to_octets(SET, words, elements(set->dx) * set->n, sum, public_length);
}

static uint32_t ciphertext_from_octets(void)
{
    return giophantus_ciphertext_from_octets(SET, ciphertext, ciphertext_length, words,
                                             elements(set->dx + set->dr) * set->n);
}

static uint32_t ciphertext_to_octets(void)
{
    return giophantus_ciphertext_to_octets(SET, words, elements(set->dx + set->dr) * set->n, sum, ciphertext_length);
}

/* Of the ciphertext's first three elements. */
static uint32_t multiply_add(void)
{
    return giophantus_multiply_add(SET, words, set->n, words + set->n, set->n, words + 2 * set->n, set->n);
}

static const struct call {
    const char *name;
    uint32_t (*run)(void);
} calls[] = {
    {"check", check},
    {"limits", limits},
    {"lengths", lengths},
    {"keygen", keygen},
    {"keygen, edition 2", keygen_2},
    {"is_zero", is_zero},
    {"encrypt", encrypt},
    {"add", add},
    {"decrypt", decrypt},
    {"element_from_octets", element_from_octets},
    {"element_to_octets", element_to_octets},
    {"small_from_octets", small_from_octets},
    {"small_to_octets", small_to_octets},
    {"secret_key_from_octets", secret_key_from_octets},
    {"secret_key_to_octets", secret_key_to_octets},
    {"public_key_from_octets", public_key_from_octets},
    {"public_key_to_octets", public_key_to_octets},
    {"ciphertext_from_octets", ciphertext_from_octets},
    {"ciphertext_to_octets", ciphertext_to_octets},
    {"multiply_add", multiply_add},
};
#define CALLS (sizeof calls / sizeof calls[0])

static uint8_t *stack;

/* A call that is made on the painted stack, its answer, and how deep it went. */
struct made {
    uint32_t (*run)(void);
    uint32_t answer;
    size_t depth;
};

static void *make(void *argument)
{
    struct made *made = argument;
    const uint8_t *here = __builtin_frame_address(0), *deepest = stack;

    made->answer = made->run();
    while (deepest < here && *deepest == PAINT)
        deepest++;
    made->depth = (size_t)(here - deepest);
    return NULL;
}

static size_t depth_of(const struct call *call)
{
    struct made made = {call->run, 0, 0};
    pthread_attr_t attributes;
    pthread_t thread;

    memset(stack, PAINT, STACK);
    if (pthread_attr_init(&attributes) != 0 || pthread_attr_setstack(&attributes, stack, STACK) != 0 ||
        pthread_create(&thread, &attributes, make, &made) != 0 || pthread_join(thread, NULL) != 0) {
        fprintf(stderr, "stack: no thread\n");
        exit(1);
    }
    pthread_attr_destroy(&attributes);
    if (made.answer != 0) {
        fprintf(stderr, "stack: %s refuses at n %u\n", call->name, set->n);
        exit(1);
    }
    return made.depth;
}

static size_t measure(size_t depths[CALLS][SETS])
{
    size_t most = 0, i, k;

    for (k = 0; k < SETS; k++)
        for (i = 0; i < CALLS; i++) {
            set = &sets[k];
            depths[i][k] = depth_of(&calls[i]);
            if (depths[i][k] > most)
                most = depths[i][k];
        }
    return most;
}

static void print(size_t depths[CALLS][SETS])
{
    size_t i, k;

    printf("KiB of stack\n\n%-24s", "n");
    for (k = 0; k < SETS; k++)
        printf(" %10u", sets[k].n);
    printf("\n%-24s", "q");
    for (k = 0; k < SETS; k++)
        printf(" %10u", sets[k].q);
    printf("\n%-24s", "degrees");
    for (k = 0; k < SETS; k++)
        printf(" %10u", sets[k].dx);
    printf("\n");
    for (i = 0; i < CALLS; i++) {
        printf("%-24s", calls[i].name);
        for (k = 0; k < SETS; k++)
            printf(" %10.1f", (double)depths[i][k] / 1024);
        printf("\n");
    }
}

int main(void)
{
    static size_t depths[CALLS][SETS];
    uint8_t *room = mmap(NULL, PAGE + STACK, PROT_READ | PROT_WRITE, MAP_PRIVATE | MAP_ANONYMOUS, -1, 0);
    size_t most, i;

    /* A call that leaves the stack meets a page that cannot be touched. */
    if (room == MAP_FAILED || mprotect(room, PAGE, PROT_NONE) != 0) {
        perror("stack");
        return 1;
    }
    stack = room + PAGE;
    for (i = 0; i < sizeof random_octets; i++)
        random_octets[i] = (uint8_t)(number() >> 56);
    most = measure(depths);
    print(depths);
    printf("\nmost: %.1f KiB; allowed: %zu KiB\n", (double)most / 1024, LIMIT >> 10);
    return most > LIMIT;
}
