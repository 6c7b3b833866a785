/*
 * calls.c: the nineteen calls of the C interface on arguments that libFuzzer chooses. By hand: see docs/FUZZING.md.
 *
 * The octets of an input choose the call, the set, the length and the contents of each buffer; where the input
 * ends, a sequence that it determines goes on. After the call the rules of giophantus.h are held to, and abort() ends the
 * program where one fails:
 *
 *     the number is that of the first refusal that applies, 10 apart: worked out here a second time
 *     inputs are unchanged; after a refusal the outputs are too
 *     work words are untouched up to and including the length test and zero after every other ending
 *     no octet outside a buffer is read or written
 *     the dropped groups and elements are those counted here; the octets used are the fixed part and theirs
 *     keygen makes the same keys in both editions; what it refuses in one it refuses in the other, but for 9
 *     what an accepted encryption under made keys gives decrypts to the message, and a sum to the total modulo l
 *     each coefficient of a sum is the sum modulo q of those added
 *     each coefficient of a * b + c is the one worked out here a second time; where n is large, one of them
 *
 * The archive is linked as it is, without a sanitizer's checks in it, so AddressSanitizer alone would not see it touch
 * an octet outside. Hence each buffer lies right before or right after a page that cannot be touched, with canaries on
 * its other side. With -DREPLAY there is a main that makes the calls of given files, on buffers of malloc with the exact
 * size, for valgrind, which sees every access.
 */

#define _GNU_SOURCE
#include <stdint.h>
#include <stdio.h>
#include <stdlib.h>
#include <string.h>
#include <sys/mman.h>

#include "giophantus.h"

#define LARGEST_N 4096u
#define PRODUCT_N 128u /* sets of larger n are left out of the calls with many products, which would take long */
#define ARENA (512u * 1024u)
#define PAGE 4096u
#define CANARIES 64u
#define CANARY 0xA5u
#define BUFFERS 16u

/* What a failed rule says before the program ends. */
static const char *now = "";
static void rule(int held, const char *what) {
    if (!held) {
        fprintf(stderr, "%s: %s\n", now, what);
        abort();
    }
}

/* ---- the input ---- */

static const uint8_t *given;
static size_t given_left;
static uint64_t sequence;

static uint8_t octet(void) {
    if (given_left > 0) {
        given_left--;
        sequence = (sequence ^ *given) * 0x100000001b3u;
        return *given++;
    }
    sequence ^= sequence << 13;
    sequence ^= sequence >> 7;
    sequence ^= sequence << 17;
    return (uint8_t)(sequence >> 24);
}

static uint32_t word(void) {
    uint32_t low = octet();
    low |= (uint32_t)octet() << 8;
    low |= (uint32_t)octet() << 16;
    return low | (uint32_t)octet() << 24;
}

/* ---- sets ---- */

/* Accepted sets without their edition: each l, degree and length of q, q next to its bound, next to or at a power of two, at its largest and on
   both sides of where the library sums 80 products otherwise. */
static const uint32_t table[][6] = {
    {2, 37, 2, 1, 1, 2},          {2, 251, 2, 1, 1, 1},           {2, 257, 3, 1, 1, 3},
    {4, 1459, 2, 1, 1, 4},        {4, 65521, 2, 1, 1, 4},         {4, 65537, 2, 1, 1, 2},
    {2, 65537, 9, 1, 1, 9},       {2, 16777213, 17, 1, 1, 8},     {2, 16777259, 16, 1, 2, 16},
    {8, 2147483647, 3, 1, 1, 9},  {8, 1073741827, 5, 1, 1, 15},   {8, 2147483647, 7, 2, 2, 21},
    {16, 2147483647, 4, 1, 1, 16}, {16, 52129279, 8, 1, 1, 16},   {16, 2147483647, 8, 1, 1, 32},
    {16, 2147483647, 2, 2, 2, 8}, {16, 2147483647, 8, 1, 2, 0},   {4, 2147483647, 16, 2, 2, 32},
    {2, 2147483647, 64, 2, 2, 64}, {2, 2147483647, 64, 1, 2, 64}, {4, 1073741827, 33, 2, 1, 64},
    {8, 2147483647, 64, 1, 1, 192}, {16, 2147483647, 115, 1, 1, 460}, {2, 2147483647, 120, 2, 2, 120},
    {4, 2147483647, 118, 1, 2, 236}, {8, 2147483647, 30, 2, 1, 0}, {4, 467424413, 1201, 1, 1, 2402},
    {2, 2147483647, 4096, 1, 1, 4096}, {2, 36, 2, 1, 1, 2},       {2, 65535, 8, 1, 1, 8},
    {2, 65536, 81, 1, 1, 81},     {2, 16777216, 81, 1, 1, 81},    {2, 480191941, 80, 1, 1, 80},
    {2, 480191942, 80, 1, 1, 80},
};
#define TABLE (sizeof table / sizeof *table)

static uint32_t places(uint32_t d) { return (d + 1) * (d + 2) / 2; }

static uint32_t bits(uint32_t l) { return l == 2 ? 1 : l == 4 ? 2 : l == 8 ? 3 : 4; }

static uint32_t bytes_of(uint32_t q) { return q < 1u << 8 ? 1 : q < 1u << 16 ? 2 : q < 1u << 24 ? 3 : 4; }

/* The bound, for l at most 16, n at most 4096 and D at most 4: it takes up to 75 bits. */
static unsigned __int128 bound_of(const giophantus_set *s) {
    unsigned __int128 total = 0, power = s->l - 1;
    for (uint32_t k = 0; k <= s->dx + s->dr; k++) {
        total += (k + 1) * power;
        power *= (unsigned __int128)s->n * (s->l - 1);
    }
    return s->l - 1 + s->l * total;
}

/* The refusal of a set, 0 where it is accepted. */
static uint32_t refusal_of(const giophantus_set *s) {
    if (s->l != 2 && s->l != 4 && s->l != 8 && s->l != 16)
        return GIOPHANTUS_RANGE;
    if (s->n < 2 || s->n > LARGEST_N)
        return GIOPHANTUS_RING;
    if (s->dx < 1 || s->dx > 2 || s->dr < 1 || s->dr > 2)
        return GIOPHANTUS_DEGREE;
    if (s->q > 2147483647u || s->q <= bound_of(s))
        return GIOPHANTUS_MODULUS;
    if (s->mlen > s->n * bits(s->l) || s->mlen % bits(s->l) != 0)
        return GIOPHANTUS_MESSAGE_SIZE;
    if (s->edition != 1 && s->edition != 2)
        return GIOPHANTUS_EDITION;
    return 0;
}

static uint32_t chosen_from; /* where in the table the set was taken, TABLE where all of it was made up */

/* One of its numbers a little or wholly changed. */
static void change_one(giophantus_set *s) {
    uint32_t *one[] = {&s->l, &s->q, &s->n, &s->dx, &s->dr, &s->mlen};
    uint8_t which = octet();
    uint32_t *it = which < 216 ? one[which % 6] : &s->edition;
    switch (octet() % 4) {
    case 0: *it += octet() % 9 - 4u; break;
    case 1: *it = octet(); break;
    case 2: *it = word(); break;
    default: /* q at its bound */
        if (s->n <= LARGEST_N)
            s->q = (uint32_t)bound_of(s) + octet() % 3 - 1;
    }
}

static giophantus_set choose_set(void) {
    uint8_t how = octet();
    chosen_from = octet() % TABLE;
    const uint32_t *from = table[chosen_from];
    giophantus_set s = {from[0], from[1], from[2], from[3], from[4], from[5], how & 2 ? 2 : 1};
    if (how < 160) { /* as it is, with another length of the message at times */
        if (how & 1)
            s.mlen = octet() % (s.n + 1) * bits(s.l);
    } else if (how < 240) {
        change_one(&s);
    } else {
        s.l = how & 1 ? 2u << octet() % 4 : word();
        s.q = word() >> octet() % 32;
        s.n = how & 2 ? octet() % 70 : word() >> octet() % 32;
        s.dx = how & 4 ? 1 + octet() % 2 : octet();
        s.dr = how & 8 ? 1 + octet() % 2 : octet();
        s.mlen = word() >> octet() % 32;
        s.edition = octet() % 4;
        chosen_from = TABLE;
    }
    return s;
}

/* The same set in the other edition. */
static giophantus_set other_edition(const giophantus_set *s) {
    giophantus_set other = *s;
    other.edition = 3 - s->edition;
    return other;
}

/* ---- buffers ---- */

enum kind { INPUT, OUTPUT, WORK };

struct buffer {
    uint8_t *at, *old, *canaries;
    size_t octets;
    enum kind kind;
};

static struct buffer buffers[BUFFERS];
static size_t made;
static int wrong_length; /* one of them isn't of its exact length */

#ifndef REPLAY
static uint8_t *arenas[BUFFERS];

static uint8_t *arena(size_t i) {
    if (arenas[i] == NULL) {
        uint8_t *map = mmap(NULL, ARENA + 2 * PAGE, PROT_NONE, MAP_PRIVATE | MAP_ANONYMOUS, -1, 0);
        if (map == MAP_FAILED || mprotect(map + PAGE, ARENA, PROT_READ | PROT_WRITE) != 0) {
            perror("mmap");
            exit(1);
        }
        arenas[i] = map + PAGE;
    }
    return arenas[i];
}
#endif

/* A buffer of this many octets, with contents of any kind. */
static struct buffer *buffer(enum kind kind, size_t octets) {
    struct buffer *b = &buffers[made];
    rule(made < BUFFERS && octets + CANARIES <= ARENA, "the harness asks for too much");
    b->octets = octets;
    b->kind = kind;
#ifdef REPLAY
    b->at = malloc(octets); /* glibc gives a pointer for 0 octets too */
    b->canaries = NULL;
#else
    if (octet() & 1) { /* its end at the page that cannot be touched */
        b->at = arena(made) + ARENA - octets;
        b->canaries = b->at - CANARIES;
    } else {
        b->at = arena(made);
        b->canaries = b->at + octets;
    }
    memset(b->canaries, CANARY, CANARIES);
#endif
    made++;
    b->old = NULL;
    uint8_t how = octet();
    if (how % 8 == 0)
        memset(b->at, 0, octets);
    else if (how % 8 == 1)
        memset(b->at, 0xFF, octets);
    else
        for (size_t i = 0; i < octets; i++)
            b->at[i] = octet();
    return b;
}

/* A buffer whose exact length is this many elements, mostly of that length. */
static struct buffer *sized(enum kind kind, size_t elements, size_t size) {
    uint8_t how = octet();
    size_t n = elements;
    if (how >= 232) {
        uint8_t by = octet();
        n = by & 1 ? elements + 1 + by % 7 : elements - (elements < 1u + by % 7 ? elements : 1u + by % 7);
    }
    if (n != elements)
        wrong_length = 1;
    return buffer(kind, n * size);
}

#define WORDS(b) (void *)(b)->at, (b)->octets / 4
#define OCTETS(b) (b)->at, (b)->octets

/* Keeps what every buffer holds before a call. */
static void keep(void) {
    for (size_t i = 0; i < made; i++) {
        free(buffers[i].old);
        buffers[i].old = malloc(buffers[i].octets + 1);
        if (buffers[i].old == NULL)
            exit(1);
        memcpy(buffers[i].old, buffers[i].at, buffers[i].octets);
    }
}

static int unchanged(const struct buffer *b) { return memcmp(b->at, b->old, b->octets) == 0; }

/* The refusals in the order in which they are tested. */
static const uint32_t order[] = {
    GIOPHANTUS_RANGE, GIOPHANTUS_RING, GIOPHANTUS_DEGREE, GIOPHANTUS_MODULUS, GIOPHANTUS_MESSAGE_SIZE,
    GIOPHANTUS_EDITION, GIOPHANTUS_LENGTH, GIOPHANTUS_PADDING, GIOPHANTUS_COEFFICIENT, GIOPHANTUS_TOP_COEFFICIENT,
    GIOPHANTUS_RANDOM_EXHAUSTED, GIOPHANTUS_TAIL
};
#define ORDER (sizeof order / sizeof *order)

/* The place of a refusal in the order; ORDER where it isn't one. */
static size_t place(uint32_t number) {
    size_t i = 0;
    while (i < ORDER && order[i] != number)
        i++;
    return i;
}

/* Whether a refusal is that of the length test or of one before it. */
static int untouched(uint32_t number) { return place(number) <= place(GIOPHANTUS_LENGTH); }

/* The rules that hold after every call. */
static void settle(uint32_t number) {
    rule(number == 0 || place(number) < ORDER, "no call gives this number");
    for (size_t i = 0; i < made; i++) {
        struct buffer *b = &buffers[i];
        if (b->kind == INPUT)
            rule(unchanged(b), "an input changed");
        else if (b->kind == OUTPUT)
            rule(number == 0 || unchanged(b), "an output changed on a refusal");
        else if (untouched(number))
            rule(unchanged(b), "a work word changed on a refusal up to the length test");
        else
            for (size_t j = 0; j < b->octets; j++)
                rule(b->at[j] == 0, "a work word isn't zero");
        if (b->canaries != NULL)
            for (size_t j = 0; j < CANARIES; j++)
                rule(b->canaries[j] == CANARY, "an octet outside a buffer changed");
    }
}

static void drop(void) {
    for (size_t i = 0; i < made; i++) {
        free(buffers[i].old);
#ifdef REPLAY
        free(buffers[i].at);
#endif
    }
    made = 0;
    wrong_length = 0;
}

/* ---- contents ---- */

/* The i-th coefficient, of size octets. */
static uint32_t coefficient(const struct buffer *b, size_t i, uint32_t size) {
    uint32_t c = 0;
    for (uint32_t j = 0; j < size; j++)
        c |= (uint32_t)b->at[i * size + j] << 8 * j;
    return c;
}

static void set_coefficient(struct buffer *b, size_t i, uint32_t size, uint32_t c) {
    for (uint32_t j = 0; j < size; j++)
        b->at[i * size + j] = (uint8_t)(c >> 8 * j);
}

/* Makes coefficients of size octets fall below the limit, all or all but one. */
static void below(struct buffer *b, uint32_t size, uint32_t limit) {
    uint8_t how = octet();
    size_t count = b->octets / size;
    if (how < 32 || count == 0)
        return; /* any contents */
    size_t odd = how < 96 ? word() % count : count;
    uint32_t odd_by = octet();
    for (size_t i = 0; i < count; i++) {
        uint32_t c = coefficient(b, i, size);
        c = i == odd ? limit - 2 + odd_by % 4 : how & 1 ? c % limit : c < limit ? c : limit - 1;
        set_coefficient(b, i, size, c);
    }
}

static int reaches(const struct buffer *b, uint32_t size, uint32_t limit) {
    for (size_t i = 0; i < b->octets / size; i++)
        if (coefficient(b, i, size) >= limit)
            return 1;
    return 0;
}

/* Clears the unused bits of a packed part, or all but one of them. */
static void clear_unused(uint8_t *at, size_t used_bits) {
    if (used_bits % 8 == 0)
        return;
    uint8_t how = octet(), *last = at + used_bits / 8;
    if (how < 32)
        return;
    *last &= (uint8_t)((1u << used_bits % 8) - 1);
    if (how < 64)
        *last |= (uint8_t)(0x80u >> how % (8 - used_bits % 8));
}

static int unused(const uint8_t *at, size_t used_bits) {
    return used_bits % 8 != 0 && at[used_bits / 8] >> used_bits % 8 != 0;
}

/* Makes packed elements of so many bits each fit, mostly: a message, a small element, the halves of a secret key. Gives
   the refusal that is left. */
static uint32_t fit_packed(struct buffer *b, size_t used_bits) {
    uint32_t refusal = 0;
    for (size_t i = 0; i < b->octets; i += (used_bits + 7) / 8) {
        clear_unused(b->at + i, used_bits);
        if (unused(b->at + i, used_bits))
            refusal = GIOPHANTUS_PADDING;
    }
    return refusal;
}

/* The same of coefficients that should be below the limit. */
static uint32_t fit_coefficients(struct buffer *b, uint32_t size, uint32_t limit) {
    below(b, size, limit);
    return reaches(b, size, limit) ? GIOPHANTUS_COEFFICIENT : 0;
}

/* The same of a second summand; half the time it brings each sum to q - 1, q or q + 1, and is q - 1 where that would take
   q or more. */
static uint32_t fit_summand(struct buffer *y, const struct buffer *x, uint32_t size, uint32_t q) {
    uint8_t how = octet();
    if (how < 128)
        return fit_coefficients(y, size, q);
    for (size_t i = 0; i < y->octets / size; i++) {
        uint32_t a = coefficient(x, i, size), b = q - 1 - a + (how + i) % 3;
        if (a < q)
            set_coefficient(y, i, size, b < q ? b : q - 1);
    }
    return reaches(y, size, q) ? GIOPHANTUS_COEFFICIENT : 0;
}

/* Of a packed argument and one of coefficients: padding comes first. */
static uint32_t fit_both(struct buffer *packed, size_t used_bits, struct buffer *b, uint32_t size, uint32_t limit) {
    uint32_t padding = fit_packed(packed, used_bits), reached = fit_coefficients(b, size, limit);
    return padding != 0 ? padding : reached;
}

/* The coefficient of t^(n - 1) of a packed element, where coefficients have so many bits. */
static uint32_t top(const uint8_t *at, uint32_t n, uint32_t width) {
    uint32_t c = 0;
    for (uint32_t j = 0, bit = (n - 1) * width; j < width; j++, bit++)
        c |= (uint32_t)(at[bit / 8] >> bit % 8 & 1) << j;
    return c;
}

static void set_top(uint8_t *at, uint32_t n, uint32_t width, uint32_t c) {
    for (uint32_t j = 0, bit = (n - 1) * width; j < width; j++, bit++)
        at[bit / 8] = (uint8_t)((at[bit / 8] & ~(1u << bit % 8)) | (c >> j & 1) << bit % 8);
}

/* Makes the top coefficients of packed elements fit, mostly; at times one is zero. Gives the refusal that is left. */
static uint32_t fit_tops(struct buffer *b, uint32_t n, uint32_t width) {
    uint32_t refusal = 0;
    for (size_t i = 0; i < b->octets; i += (n * width + 7) / 8) {
        uint8_t how = octet();
        if (how >= 64 && top(b->at + i, n, width) == 0)
            set_top(b->at + i, n, width, 1u << how % width);
        else if (how < 16)
            set_top(b->at + i, n, width, 0);
        if (top(b->at + i, n, width) == 0)
            refusal = GIOPHANTUS_TOP_COEFFICIENT;
    }
    return refusal;
}

/* Of a secret key and an argument of coefficients below q: padding and coefficients come before top coefficients. */
static uint32_t fit_secret_and(struct buffer *secret, struct buffer *b, const giophantus_set *s) {
    uint32_t width = bits(s->l), refusal = fit_both(secret, s->n * width, b, bytes_of(s->q), s->q);
    uint32_t tops = fit_tops(secret, s->n, width);
    return refusal != 0 ? refusal : tops;
}

/* ---- the calls ---- */

enum call {
    CHECK, LIMITS, LENGTHS, KEYGEN, IS_ZERO, ENCRYPT, ADD, DECRYPT, MULTIPLY_ADD, ELEMENT_FROM, ELEMENT_TO, SMALL_FROM,
    SMALL_TO, SECRET_FROM, SECRET_TO, PUBLIC_FROM, PUBLIC_TO, CIPHER_FROM, CIPHER_TO, ROUND, CALLS
};

static const char *const names[] = {
    "check", "limits", "lengths", "keygen", "is_zero", "encrypt", "add", "decrypt", "multiply_add",
    "element_from_octets", "element_to_octets", "small_from_octets", "small_to_octets", "secret_key_from_octets",
    "secret_key_to_octets", "public_key_from_octets", "public_key_to_octets", "ciphertext_from_octets",
    "ciphertext_to_octets", "round trip"
};

#define NUMBERS (GIOPHANTUS_EDITION + 1)

/* What libFuzzer is told of the archive, which has no counters: each answer of each call, by set and by kind of set. */
#ifndef REPLAY
__attribute__((used, section("__libfuzzer_extra_counters")))
#endif
static uint8_t by_set[CALLS][NUMBERS][TABLE + 1];
#ifndef REPLAY
__attribute__((used, section("__libfuzzer_extra_counters")))
#endif
static uint8_t by_kind[CALLS][NUMBERS][4][4][2][2][2];

static void tell(enum call call, uint32_t number, const giophantus_set *s) {
    by_set[call][number][chosen_from] = 1;
    if (refusal_of(s) == 0)
        by_kind[call][number][bits(s->l) - 1][bytes_of(s->q) - 1][s->dx - 1][s->dr - 1][s->edition - 1] = 1;
}

/* The coefficient of t^k in a * b modulo q. */
static uint32_t product_at(const struct buffer *a, const struct buffer *b, uint32_t n, uint32_t q, uint32_t k) {
    uint64_t sum = 0;
    for (uint32_t i = 0; i < n; i++)
        sum = (sum + (uint64_t)coefficient(a, i, 4) * coefficient(b, (n + k - i) % n, 4)) % q;
    return (uint32_t)sum;
}

/* c becomes a * b + c, of n words each. The product is worked out at every place, or at one where n is large. Gives the
   number, and in *unfit the refusal of a coefficient. */
static uint32_t multiply_add(const giophantus_set *s, int accepted, uint32_t n, uint32_t *unfit) {
    struct buffer *a = sized(INPUT, n, 4), *b = octet() & 1 ? a : sized(INPUT, n, 4), *c = sized(OUTPUT, n, 4);
    struct buffer *product = buffer(INPUT, 4 * n); /* it isn't passed */
    uint32_t where = n > PRODUCT_N ? octet() % 3 : 0, step = n > PRODUCT_N ? n : 1;
    uint32_t first = where == 0 ? 0 : where == 1 ? n - 1 : word() % n;
    int fit = accepted && !wrong_length;
    memset(product->at, 0, product->octets);
    if (fit) {
        *unfit = fit_coefficients(a, 4, s->q);
        if (b != a && fit_coefficients(b, 4, s->q) != 0)
            *unfit = GIOPHANTUS_COEFFICIENT;
        for (uint32_t k = first; k < n; k += step)
            set_coefficient(product, k, 4, product_at(a, b, n, s->q, k));
        if (fit_summand(c, product, 4, s->q) != 0)
            *unfit = GIOPHANTUS_COEFFICIENT;
    }
    keep();
    uint32_t number = giophantus_multiply_add(*s, WORDS(a), WORDS(b), WORDS(c));
    for (uint32_t k = first; fit && number == 0 && k < n; k += step) {
        uint32_t old;
        memcpy(&old, c->old + 4 * k, 4);
        rule(coefficient(c, k, 4) == ((uint64_t)coefficient(product, k, 4) + old) % s->q,
             "a coefficient isn't that of a * b + c");
    }
    return number;
}

/* What a call takes from its random octets: elements of a secret key, draws below q, elements of the noise. */
struct draws {
    size_t secrets, count, noise;
    const giophantus_set *s;
};

/* Edition 2 draws the constant too. */
static struct draws keygen_draws(const giophantus_set *s) {
    uint32_t elements = s->edition == 2 ? places(s->dx) : places(s->dx) - 1;
    return (struct draws){2, (size_t)elements * s->n, 0, s};
}

static struct draws encrypt_draws(const giophantus_set *s) {
    return (struct draws){0, (size_t)places(s->dr) * s->n, places(s->dx + s->dr), s};
}

static size_t small_of(const giophantus_set *s) { return (s->n * bits(s->l) + 7) / 8; }

/* The octets that are used where nothing is dropped. */
static size_t fixed_part(const struct draws *d) {
    return (d->secrets + d->noise) * small_of(d->s) + d->count * bytes_of(d->s->q);
}

/* Random octets: enough of them mostly, with room for what is dropped. At times some of the first elements have a top
   coefficient of zero, or all have. */
static struct buffer *random_octets(const struct draws *d) {
    size_t needed = fixed_part(d), small = small_of(d->s);
    uint8_t how = octet(), which = octet();
    size_t n = how < 16 ? needed - needed % (1u + octet()) : how < 32 ? octet() : 4 * needed + 64;
    struct buffer *random = buffer(INPUT, n);
    for (size_t i = 0; how % 4 == 0 && d->secrets > 0 && (i + 1) * small <= n; i++)
        if (i < 8 ? which >> i & 1 : which == 0xFF)
            set_top(random->at + i * small, d->s->n, bits(d->s->l), 0);
    return random;
}

/* The elements that are dropped until all of a secret key are kept, or more than there are. */
static uint64_t elements_dropped(const struct draws *d, const struct buffer *random) {
    size_t kept = 0, at = 0, small = small_of(d->s);
    for (; kept < d->secrets && at + small <= random->octets; at += small)
        if (top(random->at + at, d->s->n, bits(d->s->l)) != 0)
            kept++;
    return kept < d->secrets ? UINT64_MAX : at / small - kept;
}

/* The groups that are dropped from here until all draws below q are made, or more than there are. */
static uint64_t groups_dropped(const struct draws *d, const struct buffer *random, size_t at) {
    uint32_t q = d->s->q, qlen = bytes_of(q), mask = UINT32_MAX >> __builtin_clz(q);
    uint64_t dropped = 0;
    for (size_t kept = 0; kept < d->count; at += qlen) {
        uint32_t group = 0;
        if (at + qlen > random->octets)
            return UINT64_MAX;
        for (uint32_t j = 0; j < qlen; j++)
            group |= (uint32_t)random->at[at + j] << 8 * j;
        if ((group & mask) < q)
            kept++;
        else
            dropped++;
    }
    return dropped;
}

/* The rules of a call that draws, where no refusal before 9 applies. dropped_elements is NULL where the call doesn't
   tell them. */
static void judge_draws(uint32_t number, struct draws d, const struct buffer *random, const struct buffer *used,
                        const struct buffer *dropped_groups, const struct buffer *dropped_elements) {
    size_t small = small_of(d.s);
    uint64_t elements = elements_dropped(&d, random), groups = UINT64_MAX, want = 0, told = 0;
    if (elements != UINT64_MAX)
        groups = groups_dropped(&d, random, (d.secrets + elements) * small);
    if (groups != UINT64_MAX)
        want = fixed_part(&d) + bytes_of(d.s->q) * groups + small * elements;
    int accepted = groups != UINT64_MAX && want <= random->octets;
    rule(number == (accepted ? 0 : GIOPHANTUS_RANDOM_EXHAUSTED), "random octets: enough or too few");
    if (!accepted)
        return;
    memcpy(&told, dropped_groups->at, 8);
    rule(told == groups, "another number of dropped groups");
    if (dropped_elements != NULL) {
        memcpy(&told, dropped_elements->at, 8);
        rule(told == elements, "another number of dropped elements");
    }
    memcpy(&told, used->at, 8);
    rule(told == want, "the octets used aren't the fixed part and those of dropped groups and elements");
}

/* What keygen is lent, and what it answered. */
struct keys {
    struct buffer *random, *secret, *public, *work, *used, *groups, *elements;
    uint32_t number;
};

static uint32_t keygen(giophantus_set s, const struct keys *k) {
    return giophantus_keygen(s, OCTETS(k->random), OCTETS(k->secret), OCTETS(k->public), WORDS(k->work),
                             (void *)k->used->at, (void *)k->groups->at, (void *)k->elements->at);
}

static int same(const struct buffer *a, const struct buffer *b) {
    return a->octets == b->octets && memcmp(a->at, b->at, a->octets) == 0;
}

/* keygen again in the other edition, on the same octets and, where it was refused before the draws, on the same
   buffers. */
static void keygen_again(const giophantus_set *s, const struct keys *k) {
    giophantus_set other = other_edition(s);
    struct keys again = *k;
    int drawn = !untouched(k->number);
    if (drawn) {
        k->secret->kind = k->public->kind = k->used->kind = k->groups->kind = k->elements->kind = INPUT;
        again.secret = buffer(OUTPUT, k->secret->octets), again.public = buffer(OUTPUT, k->public->octets);
        again.used = buffer(OUTPUT, 8), again.groups = buffer(OUTPUT, 8), again.elements = buffer(OUTPUT, 8);
    }
    keep();
    again.number = keygen(other, &again);
    settle(again.number);
    if (!drawn) {
        rule(again.number == k->number, "another refusal in the other edition");
        return;
    }
    judge_draws(again.number, keygen_draws(&other), k->random, again.used, again.groups, again.elements);
    uint32_t first = s->edition == 1 ? k->number : again.number, second = s->edition == 1 ? again.number : k->number;
    rule(first == 0 || second != 0, "octets for edition 2 aren't enough for edition 1");
    if (first == 0 && second == 0)
        rule(same(again.secret, k->secret) && same(again.public, k->public) && same(again.elements, k->elements),
             "other keys in the other edition");
    again.secret->kind = again.public->kind = again.used->kind = again.groups->kind = again.elements->kind = INPUT;
    keep();
}

/* Keys, two messages, their ciphertexts, the sum, and back, some of it in the other edition. */
static void round_trip(const giophantus_set *s, size_t sk, size_t pk, size_t msg, size_t ct) {
    uint32_t b = bits(s->l), small = (s->n * b + 7) / 8, qlen = bytes_of(s->q), number;
    struct buffer *random = buffer(INPUT, 4 * (2 * small + pk) + 64);
    struct buffer *secret = buffer(OUTPUT, sk), *public = buffer(OUTPUT, pk);
    struct buffer *work = buffer(WORK, 32u * s->n), *used = buffer(OUTPUT, 8), *zero = buffer(OUTPUT, 4);
    struct buffer *groups = buffer(OUTPUT, 8), *elements = buffer(OUTPUT, 8);
    keep();
    number = giophantus_keygen(*s, OCTETS(random), OCTETS(secret), OCTETS(public), WORDS(work), (void *)used->at,
                               (void *)groups->at, (void *)elements->at);
    settle(number);
    tell(ROUND, number, s);
    judge_draws(number, keygen_draws(s), random, used, groups, elements);
    if (number != 0)
        return;
    secret->kind = public->kind = INPUT;
    giophantus_set other = other_edition(s);
    keep();
    number = giophantus_is_zero(other, OCTETS(secret), OCTETS(public), WORDS(work), (void *)zero->at);
    settle(number);
    uint32_t is_zero;
    memcpy(&is_zero, zero->at, 4);
    rule(number == 0 && is_zero == 1, "a made secret key isn't a zero of its public key");

    struct buffer *message[2], *cipher[2], *more[2];
    for (int i = 0; i < 2; i++) {
        message[i] = buffer(INPUT, msg);
        if (s->mlen % 8 != 0)
            message[i]->at[s->mlen / 8] &= (uint8_t)((1u << s->mlen % 8) - 1);
        more[i] = buffer(INPUT, 4 * (places(s->dr) * s->n * qlen + places(s->dx + s->dr) * small) + 64);
        cipher[i] = buffer(OUTPUT, ct);
        keep();
        number = giophantus_encrypt(i == 0 ? *s : other, OCTETS(public), OCTETS(message[i]), OCTETS(more[i]), OCTETS(cipher[i]),
                                    WORDS(work), (void *)used->at, (void *)groups->at);
        settle(number);
        judge_draws(number, encrypt_draws(s), more[i], used, groups, NULL);
        if (number != 0)
            return;
        cipher[i]->kind = INPUT;
    }
    struct buffer *sum = buffer(OUTPUT, ct), *back = buffer(OUTPUT, msg);
    keep();
    number = giophantus_decrypt(other, OCTETS(secret), OCTETS(cipher[0]), OCTETS(back), WORDS(work));
    settle(number);
    rule(number == 0, "a fresh ciphertext isn't decrypted");
    rule(memcmp(back->at, message[0]->at, msg) == 0, "a fresh ciphertext decrypts to another message");
    keep();
    number = giophantus_add(*s, OCTETS(cipher[0]), OCTETS(cipher[1]), OCTETS(sum));
    /* add has no work words; those of the calls before are zero already */
    settle(number);
    rule(number == 0, "two ciphertexts aren't added");
    if (2 * bound_of(s) >= s->q)
        return; /* no headroom for two */
    sum->kind = INPUT;
    keep();
    number = giophantus_decrypt(*s, OCTETS(secret), OCTETS(sum), OCTETS(back), WORDS(work));
    settle(number);
    rule(number == 0, "a sum isn't decrypted");
    for (uint32_t i = 0; i < s->mlen / b; i++) {
        uint32_t total = 0;
        for (uint32_t j = 0; j < b; j++) {
            uint32_t at = i * b + j, place = at / 8, bit = at % 8;
            total += (uint32_t)(message[0]->at[place] >> bit & 1) << j;
            total += (uint32_t)(message[1]->at[place] >> bit & 1) << j;
            total -= (uint32_t)(back->at[place] >> bit & 1) << j;
        }
        rule(total % s->l == 0, "a sum decrypts to another total");
    }
}

typedef uint32_t from_octets(giophantus_set, const uint8_t *, size_t, uint32_t *, size_t);
typedef uint32_t to_octets(giophantus_set, const uint32_t *, size_t, uint8_t *, size_t);

static void one_call(void) {
    enum call call = octet() % CALLS;
    giophantus_set s = choose_set();
    uint32_t refused = refusal_of(&s), number = 0, unfit = 0;
    now = names[call];

    /* The exact lengths; for a set that is refused, any. */
    uint32_t b = 0, qlen = 0, small = octet();
    size_t sk = octet(), pk = octet(), msg = octet(), ct = octet(), work_words = octet(), element = octet();
    uint32_t n = octet(), nx = 1, nd = 1;
    if (refused == 0) {
        b = bits(s.l), qlen = bytes_of(s.q), n = s.n, nx = places(s.dx), nd = places(s.dx + s.dr);
        small = (n * b + 7) / 8, element = (size_t)n * qlen;
        sk = 2u * small, pk = nx * element, ct = nd * element, msg = (s.mlen + 7) / 8, work_words = 8u * n;
    }
    int products = call == KEYGEN || call == IS_ZERO || call == ENCRYPT || call == DECRYPT || call == ROUND;
    if (products && refused == 0 && n > PRODUCT_N)
        return;
    if (call == ROUND) {
        if (refused == 0)
            round_trip(&s, sk, pk, msg, ct);
        return;
    }

    struct buffer *x, *y, *z, *w, *u = NULL, *v = NULL, *e = NULL, *r = NULL;
    struct draws d = {0, 0, 0, &s};
    struct keys k;
    switch (call) {
    case CHECK:
        number = giophantus_check(s);
        break;
    case LIMITS:
        x = buffer(OUTPUT, 4), y = buffer(OUTPUT, 4);
        keep();
        number = giophantus_limits(s, (void *)x->at, (void *)y->at);
        if (number == 0 && refused == 0) {
            uint32_t bound, headroom;
            memcpy(&bound, x->at, 4), memcpy(&headroom, y->at, 4);
            rule(bound == bound_of(&s) && headroom == (s.q - 1) / bound, "another bound or headroom");
        }
        break;
    case LENGTHS: {
        for (int i = 0; i < 5; i++)
            buffer(OUTPUT, 8);
        keep();
        number = giophantus_lengths(s, (void *)buffers[0].at, (void *)buffers[1].at, (void *)buffers[2].at,
                                    (void *)buffers[3].at, (void *)buffers[4].at);
        uint64_t want[] = {sk, pk, msg, ct, work_words};
        for (int i = 0; i < 5 && number == 0 && refused == 0; i++)
            rule(memcmp(buffers[i].at, &want[i], 8) == 0, "another length");
        break;
    }
    case KEYGEN:
        d = keygen_draws(&s), r = refused == 0 ? random_octets(&d) : buffer(INPUT, octet());
        x = sized(OUTPUT, sk, 1), y = sized(OUTPUT, pk, 1), w = sized(WORK, work_words, 4);
        u = buffer(OUTPUT, 8), v = buffer(OUTPUT, 8), e = buffer(OUTPUT, 8);
        k = (struct keys){r, x, y, w, u, v, e, 0};
        keep();
        number = k.number = keygen(s, &k);
        if (s.edition == 1 || s.edition == 2) {
            settle(number);
            keygen_again(&s, &k);
        }
        break;
    case IS_ZERO:
        x = sized(INPUT, sk, 1), y = sized(INPUT, pk, 1), w = sized(WORK, work_words, 4), u = buffer(OUTPUT, 4);
        if (refused == 0 && !wrong_length)
            unfit = fit_secret_and(x, y, &s);
        keep();
        number = giophantus_is_zero(s, OCTETS(x), OCTETS(y), WORDS(w), (void *)u->at);
        break;
    case ENCRYPT:
        x = sized(INPUT, pk, 1), y = sized(INPUT, msg, 1);
        d = encrypt_draws(&s), r = refused == 0 ? random_octets(&d) : buffer(INPUT, octet());
        z = sized(OUTPUT, ct, 1), w = sized(WORK, work_words, 4), u = buffer(OUTPUT, 8), v = buffer(OUTPUT, 8);
        if (refused == 0 && !wrong_length)
            unfit = fit_both(y, s.mlen, x, qlen, s.q);
        keep();
        number = giophantus_encrypt(s, OCTETS(x), OCTETS(y), OCTETS(r), OCTETS(z), WORDS(w), (void *)u->at,
                                    (void *)v->at);
        break;
    case ADD:
        x = sized(INPUT, ct, 1), y = octet() & 1 ? x : sized(INPUT, ct, 1), z = sized(OUTPUT, ct, 1);
        if (refused == 0 && !wrong_length) {
            unfit = fit_coefficients(x, qlen, s.q);
            if (y != x && fit_summand(y, x, qlen, s.q) != 0)
                unfit = GIOPHANTUS_COEFFICIENT;
        }
        keep();
        number = giophantus_add(s, OCTETS(x), OCTETS(y), OCTETS(z));
        for (size_t i = 0; number == 0 && refused == 0 && i < z->octets / qlen; i++)
            rule(coefficient(z, i, qlen) == ((uint64_t)coefficient(x, i, qlen) + coefficient(y, i, qlen)) % s.q,
                 "a coefficient of the sum isn't the sum modulo q");
        break;
    case DECRYPT:
        x = sized(INPUT, sk, 1), y = sized(INPUT, ct, 1), z = sized(OUTPUT, msg, 1), w = sized(WORK, work_words, 4);
        if (refused == 0 && !wrong_length)
            unfit = fit_secret_and(x, y, &s);
        keep();
        number = giophantus_decrypt(s, OCTETS(x), OCTETS(y), OCTETS(z), WORDS(w));
        break;
    case MULTIPLY_ADD:
        number = multiply_add(&s, refused == 0, n, &unfit);
        break;
    default: { /* the conversions */
        static from_octets *const from[] = {giophantus_element_from_octets, giophantus_small_from_octets,
                                            giophantus_secret_key_from_octets, giophantus_public_key_from_octets,
                                            giophantus_ciphertext_from_octets};
        static to_octets *const to[] = {giophantus_element_to_octets, giophantus_small_to_octets,
                                        giophantus_secret_key_to_octets, giophantus_public_key_to_octets,
                                        giophantus_ciphertext_to_octets};
        int which = (call - ELEMENT_FROM) / 2, packed = which == 1 || which == 2;
        size_t octets[] = {element, small, sk, pk, ct};
        size_t words[] = {n, n, (size_t)2 * n, (size_t)nx * n, (size_t)nd * n};
        if ((call - ELEMENT_FROM) % 2 == 0) {
            x = sized(INPUT, octets[which], 1), y = sized(OUTPUT, words[which], 4);
            if (refused == 0 && !wrong_length)
                unfit = packed ? fit_packed(x, n * b) : fit_coefficients(x, qlen, s.q);
            keep();
            number = from[which](s, OCTETS(x), WORDS(y));
        } else {
            x = sized(INPUT, words[which], 4), y = sized(OUTPUT, octets[which], 1);
            if (refused == 0 && !wrong_length)
                unfit = fit_coefficients(x, 4, packed ? s.l : s.q);
            keep();
            number = to[which](s, WORDS(x), OCTETS(y));
        }
        if (number == 0) { /* and back: the same again */
            settle(number);
            struct buffer *again = buffer(OUTPUT, x->octets);
            y->kind = INPUT;
            keep();
            uint32_t second = (call - ELEMENT_FROM) % 2 == 0 ? to[which](s, WORDS(y), OCTETS(again))
                                                             : from[which](s, OCTETS(y), WORDS(again));
            settle(second);
            rule(second == 0 && memcmp(again->at, x->at, x->octets) == 0, "there and back isn't the same");
        }
    }
    }

    settle(number);
    uint32_t want = refused != 0 ? refused : wrong_length ? GIOPHANTUS_LENGTH : unfit;
    if (want != 0)
        rule(number == want, "another refusal");
    else if (call == KEYGEN || call == ENCRYPT)
        judge_draws(number, d, r, u, v, e);
    else if (call == DECRYPT)
        rule(number == 0 || number == GIOPHANTUS_TAIL, "an unexpected refusal");
    else
        rule(number == 0, "refused without a reason");
    tell(call, number, &s);
}

int LLVMFuzzerTestOneInput(const uint8_t *data, size_t size) {
    given = data;
    given_left = size;
    sequence = 0xcbf29ce484222325u;
    one_call();
    drop();
    return 0;
}

#ifdef REPLAY
int main(int count, char **names_of_files) {
    for (int i = 1; i < count; i++) {
        static uint8_t octets[65536];
        FILE *file = fopen(names_of_files[i], "rb");
        if (file == NULL) {
            perror(names_of_files[i]);
            return 2;
        }
        size_t size = fread(octets, 1, sizeof octets, file);
        fclose(file);
        LLVMFuzzerTestOneInput(octets, size);
    }
    printf("%d inputs replayed\n", count - 1);
    return 0;
}
#endif
