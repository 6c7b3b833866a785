/* The calls of documents 01 and 02 in plain C over any of the rings of ring.h. */

#include <string.h>

#include "modular.h"
#include "peer.h"

typedef uint32_t element[MAX_N];

size_t elements(uint32_t degree)
{
    return (degree + 1) * (degree + 2) / 2;
}

static uint32_t bit_length(uint32_t q)
{
    return 32 - (uint32_t)__builtin_clz(q);
}

uint32_t qlen(const struct set *s)
{
    return (bit_length(s->q) + 7) / 8;
}

uint32_t small_bits(const struct set *s)
{
    return (uint32_t)__builtin_ctz(s->l);
}

size_t small_octets(const struct set *s)
{
    return (s->n * small_bits(s) + 7) / 8;
}

size_t element_octets(const struct set *s)
{
    return (size_t)s->n * qlen(s);
}

/* The place of x^i y^j: by falling total degree, then by falling power of x. */
static size_t position(uint32_t degree, uint32_t i, uint32_t j)
{
    uint32_t total = i + j;

    return elements(degree) - elements(total) + j;
}

static uint32_t get_number(const uint8_t *octets, uint32_t length)
{
    uint32_t x = 0;

    switch (length) {
    case 4: memcpy(&x, octets, 4); break;
    case 3: x = octets[0] | (uint32_t)octets[1] << 8 | (uint32_t)octets[2] << 16; break;
    case 2: x = octets[0] | (uint32_t)octets[1] << 8; break;
    default: x = octets[0];
    }
    return x;
}

static void put_number(uint8_t *octets, uint32_t length, uint32_t x)
{
    switch (length) {
    case 4: memcpy(octets, &x, 4); break;
    case 3: octets[2] = (uint8_t)(x >> 16); /* fall through */
    case 2: octets[1] = (uint8_t)(x >> 8); /* fall through */
    default: octets[0] = (uint8_t)x;
    }
}

static void get_element(const struct set *s, const uint8_t *octets, uint32_t *words)
{
    uint32_t i, length = qlen(s);

    if (length == 4)
        memcpy(words, octets, element_octets(s));
    else
        for (i = 0; i < s->n; i++)
            words[i] = get_number(octets + (size_t)i * length, length);
}

static void put_element(const struct set *s, const uint32_t *words, uint8_t *octets)
{
    uint32_t i, length = qlen(s);

    if (length == 4)
        memcpy(octets, words, element_octets(s));
    else
        for (i = 0; i < s->n; i++)
            put_number(octets + (size_t)i * length, length, words[i]);
}

/* `count` coefficients of b bits, through a window of the octets. */
static void unpack(const struct set *s, const uint8_t *octets, uint32_t count, uint32_t *words)
{
    uint32_t b = small_bits(s), window = 0, have = 0, i;

    for (i = 0; i < count; i++) {
        if (have < b) {
            window |= (uint32_t)*octets++ << have;
            have += 8;
        }
        words[i] = window & (s->l - 1);
        window >>= b;
        have -= b;
    }
}

static void pack(const struct set *s, const uint32_t *words, uint32_t count, uint8_t *octets)
{
    uint32_t b = small_bits(s), window = 0, have = 0, i;

    for (i = 0; i < count; i++) {
        window |= words[i] << have;
        have += b;
        if (have >= 8) {
            *octets++ = (uint8_t)window;
            window >>= 8;
            have -= 8;
        }
    }
    if (have > 0)
        *octets = (uint8_t)window;
}

static void add_element(const struct set *s, uint32_t *a, const uint32_t *b)
{
    uint32_t i;

    for (i = 0; i < s->n; i++)
        a[i] = add_mod(a[i], b[i], s->q);
}

static void sub_element(const struct set *s, uint32_t *a, const uint32_t *b)
{
    uint32_t i;

    for (i = 0; i < s->n; i++)
        a[i] = sub_mod(a[i], b[i], s->q);
}

/* An element of draws below q; answers the octets after them, and adds the number of dropped groups. */
static const uint8_t *draw_element(const struct set *s, const uint8_t *random, uint32_t *words, uint64_t *dropped_groups)
{
    uint32_t i, x, length = qlen(s);
    uint32_t mask = UINT32_MAX >> (32 - bit_length(s->q));
    uint64_t dropped = 0;

    for (i = 0; i < s->n; i++) {
        while ((x = get_number(random, length) & mask) >= s->q) {
            random += length;
            dropped++;
        }
        random += length;
        words[i] = x;
    }
    *dropped_groups += dropped;
    return random;
}

/* A small element whose coefficient of t^(n - 1) isn't zero; answers the octets after it, and adds the number of dropped
   elements. */
static const uint8_t *draw_secret(const struct set *s, const uint8_t *random, uint32_t *words, uint64_t *dropped_elements)
{
    for (;;) {
        unpack(s, random, s->n, words);
        random += small_octets(s);
        if (words[s->n - 1] != 0)
            return random;
        ++*dropped_elements;
    }
}

static void product(const struct ring *r, const uint32_t *a, const uint32_t *b, uint32_t *words)
{
    r->load(0, a);
    r->load(1, b);
    r->mul_add(0, 0, 1);
    r->take(0, words);
}

/* The value at (u_x, u_y) by Horner's rule, in x and for each power of x in y. */
static void value(const struct ring *r, const struct set *s, uint32_t degree, element *c, const uint32_t *u_x,
                  const uint32_t *u_y, uint32_t *w)
{
    static element v;
    uint32_t i, j;

    for (i = degree + 1; i-- > 0;) {
        memcpy(v, c[position(degree, i, degree - i)], s->n * sizeof *v);
        for (j = degree - i; j-- > 0;) {
            product(r, v, u_y, v);
            add_element(s, v, c[position(degree, i, j)]);
        }
        if (i == degree) {
            memcpy(w, v, s->n * sizeof *w);
        } else {
            product(r, w, u_x, w);
            add_element(s, w, v);
        }
    }
}

static element u_x, u_y, w, given[MAX_ELEMENTS], drawn[MAX_ELEMENTS], made[MAX_ELEMENTS], one, two;

static void get_secret_key(const struct set *s, const uint8_t *secret_key)
{
    unpack(s, secret_key, s->n, u_x);
    unpack(s, secret_key + small_octets(s), s->n, u_y);
}

uint64_t peer_keygen(const struct ring *r, const struct set *s, const uint8_t *random, uint8_t *secret_key,
                     uint8_t *public_key, uint64_t *dropped_groups, uint64_t *dropped_elements)
{
    const uint8_t *at;
    size_t k, last = elements(s->dx) - 1;

    *dropped_groups = *dropped_elements = 0;
    at = draw_secret(s, random, u_x, dropped_elements);
    at = draw_secret(s, at, u_y, dropped_elements);
    for (k = 0; k < last; k++)
        at = draw_element(s, at, made[k], dropped_groups);
    if (s->edition == 2)
        at = draw_element(s, at, w, dropped_groups);
    memset(made[last], 0, sizeof made[last]);
    value(r, s, s->dx, made, u_x, u_y, w);
    sub_element(s, made[last], w);

    pack(s, u_x, s->n, secret_key);
    pack(s, u_y, s->n, secret_key + small_octets(s));
    for (k = 0; k <= last; k++)
        put_element(s, made[k], public_key + k * element_octets(s));
    return (uint64_t)(at - random);
}

int peer_is_zero(const struct ring *r, const struct set *s, const uint8_t *secret_key, const uint8_t *public_key)
{
    size_t k;
    uint32_t i, any = 0;

    get_secret_key(s, secret_key);
    for (k = 0; k < elements(s->dx); k++)
        get_element(s, public_key + k * element_octets(s), given[k]);
    value(r, s, s->dx, given, u_x, u_y, w);
    for (i = 0; i < s->n; i++)
        any |= w[i];
    return any == 0;
}

/* made = given * drawn, a product for each pair. */
static void multiply(const struct ring *r, const struct set *s)
{
    size_t x = elements(s->dx), y = elements(s->dr), k;
    uint32_t degree = s->dx + s->dr, i, j, e, f;

    for (k = 0; k < x; k++)
        r->load((int)k, given[k]);
    for (k = 0; k < y; k++)
        r->load((int)(x + k), drawn[k]);
    for (i = 0; i <= s->dx; i++)
        for (j = 0; i + j <= s->dx; j++)
            for (e = 0; e <= s->dr; e++)
                for (f = 0; e + f <= s->dr; f++)
                    r->mul_add((int)position(degree, i + e, j + f), (int)position(s->dx, i, j),
                               (int)(x + position(s->dr, e, f)));
    for (k = 0; k < elements(degree); k++)
        r->take((int)k, made[k]);
}

/* The same for dX = dr: X_i r_j + X_j r_i = (X_i + X_j)(r_i + r_j) - X_i r_i - X_j r_j. */
static void multiply_shared(const struct ring *r, const struct set *s)
{
    static element diagonal[MAX_ELEMENTS];
    uint32_t d = s->dx, i, j, e, f;

    for (i = 0; i < elements(2 * d); i++)
        memset(made[i], 0, s->n * sizeof made[i][0]);
    for (i = 0; i <= d; i++)
        for (j = 0; i + j <= d; j++) {
            size_t k = position(d, i, j);

            product(r, given[k], drawn[k], diagonal[k]);
            add_element(s, made[position(2 * d, 2 * i, 2 * j)], diagonal[k]);
        }
    for (i = 0; i <= d; i++)
        for (j = 0; i + j <= d; j++)
            for (e = 0; e <= d; e++)
                for (f = 0; e + f <= d; f++) {
                    size_t k = position(d, i, j), m = position(d, e, f);
                    uint32_t *to = made[position(2 * d, i + e, j + f)];

                    if (k >= m)
                        continue;
                    memcpy(one, given[k], s->n * sizeof *one);
                    add_element(s, one, given[m]);
                    memcpy(two, drawn[k], s->n * sizeof *two);
                    add_element(s, two, drawn[m]);
                    product(r, one, two, one);
                    add_element(s, to, one);
                    sub_element(s, to, diagonal[k]);
                    sub_element(s, to, diagonal[m]);
                }
}

uint64_t peer_encrypt(const struct ring *r, int shared, const struct set *s, const uint8_t *public_key,
                      const uint8_t *message, const uint8_t *random, uint8_t *ciphertext, uint64_t *dropped_groups)
{
    const uint8_t *at = random;
    size_t k, last = elements(s->dx + s->dr) - 1;
    uint32_t i, kept = s->mlen / small_bits(s);

    for (k = 0; k < elements(s->dx); k++)
        get_element(s, public_key + k * element_octets(s), given[k]);
    *dropped_groups = 0;
    for (k = 0; k < elements(s->dr); k++)
        at = draw_element(s, at, drawn[k], dropped_groups);
    if (shared)
        multiply_shared(r, s);
    else
        multiply(r, s);
    for (k = 0; k <= last; k++) {
        unpack(s, at, s->n, one);
        at += small_octets(s);
        for (i = 0; i < s->n; i++)
            made[k][i] = add_mod(made[k][i], s->l * one[i], s->q);
    }
    unpack(s, message, kept, one);
    for (i = 0; i < kept; i++)
        made[last][i] = add_mod(made[last][i], one[i], s->q);
    for (k = 0; k <= last; k++)
        put_element(s, made[k], ciphertext + k * element_octets(s));
    return (uint64_t)(at - random);
}

void peer_decrypt(const struct ring *r, const struct set *s, const uint8_t *secret_key, const uint8_t *ciphertext,
                  uint8_t *message)
{
    size_t k;
    uint32_t i;

    get_secret_key(s, secret_key);
    for (k = 0; k < elements(s->dx + s->dr); k++)
        get_element(s, ciphertext + k * element_octets(s), given[k]);
    value(r, s, s->dx + s->dr, given, u_x, u_y, w);
    for (i = 0; i < s->n; i++)
        w[i] &= s->l - 1;
    pack(s, w, s->mlen / small_bits(s), message);
}

void peer_multiply_add(const struct ring *r, const struct set *s, const uint32_t *a, const uint32_t *b, uint32_t *c)
{
    product(r, a, b, one);
    add_element(s, c, one);
}

void peer_add(const struct set *s, const uint8_t *a, const uint8_t *b, uint8_t *sum)
{
    size_t k, at;

    for (k = 0; k < elements(s->dx + s->dr); k++) {
        at = k * element_octets(s);
        get_element(s, a + at, one);
        get_element(s, b + at, two);
        add_element(s, one, two);
        put_element(s, one, sum + at);
    }
}

void peer_decode(const struct set *s, const uint8_t *octets, uint32_t *words)
{
    size_t k;

    for (k = 0; k < elements(s->dx + s->dr); k++)
        get_element(s, octets + k * element_octets(s), words + k * s->n);
}

void peer_encode(const struct set *s, const uint32_t *words, uint8_t *octets)
{
    size_t k;

    for (k = 0; k < elements(s->dx + s->dr); k++)
        put_element(s, words + k * s->n, octets + k * element_octets(s));
}

void peer_unpack(const struct set *s, const uint8_t *octets, uint32_t *words)
{
    unpack(s, octets, s->n, words);
}

void peer_pack(const struct set *s, const uint32_t *words, uint8_t *octets)
{
    pack(s, words, s->n, octets);
}
