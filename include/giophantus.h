/*
 * giophantus.h: the Giophantus scheme for adding encrypted counts.
 *
 * Link with libgiophantus.a, which `tests/archive` at the repository's root writes to target/staticlib:
 *
 *     cc -std=c11 -Iinclude program.c target/staticlib/libgiophantus.a
 *
 * The set. Every call begins with a parameter set, one giophantus_set by value, which has seven numbers:
 *
 *     l        2, 4, 8 or 16. A count is a small coefficient: 0 to l - 1, held in b = 1, 2, 3 or 4 bits.
 *     q        the modulus: above the bound B of the set, at most 2147483647. It should be prime; that is the care of
 *              whoever chooses the set, and is not tested.
 *     n        2 to 4096, the number of coefficients of a ring element (its places, t^0 to t^(n - 1)).
 *     dx       1 or 2, the degree of the public key in x and y.
 *     dr       1 or 2, the degree of the polynomial drawn by encryption. A ciphertext has degree D = dx + dr.
 *     mlen     the length of a message in bits: 0 to n * b, a multiple of b. A message has mlen / b counts.
 *     edition  1 or 2: by which of two suppliers' rules keys are drawn. In edition 2 the n coefficients of the public
 *              key's constant are drawn too, after the others, and thrown away.
 *
 *     giophantus_set set = {.l = 4, .q = 1459, .n = 2, .dx = 1, .dr = 1, .mlen = 4, .edition = 1};
 *
 * or, also in C++, {4, 1459, 2, 1, 1, 4, 1}. Give all seven. Where an initialiser leaves the edition out it is 0, and
 * the set is refused with 18: none is guessed. A set declared without an initialiser holds anything, an edition too.
 *
 * The edition matters at key generation alone. From the same octets both editions make the same keys; only how many
 * octets are used, how many groups are dropped and whether the octets suffice differ. Every other call answers alike in
 * both: a key pair of either edition serves ciphertexts of both.
 *
 * Lengths, with N(d) = (d + 1)(d + 2) / 2 and qlen the bit length of q divided by 8, rounded up:
 *
 *     ring element   n * qlen octets           a coefficient is qlen octets, least significant first; from t^0 up
 *     small element  ceil(n * b / 8) octets    packed: coefficient i takes b bits from bit i * b; bit 0 is the lowest
 *                                              bit of the first octet; unused top bits are zero
 *     secret key     2 * ceil(n * b / 8)       the packed u_x, then the packed u_y; the top coefficient of each,
 *                                              that of t^(n - 1), isn't zero
 *     public key     N(dx) * n * qlen          ring elements by falling total degree, then by falling power of x
 *     ciphertext     N(D) * n * qlen           the same
 *     message        ceil(mlen / 8)            packed like a small element; unused bits count from mlen
 *     work           8 * n words of 32 bits
 *
 * Buffers. A buffer is a pointer and then its length in elements (octets, or words for work and coefficients).
 * Every length must be exact, random octets apart, of which any number may be given. No pointer may be null, those
 * to numbers included; a buffer of length 0 may have any other pointer. A buffer that a call writes overlaps no
 * other argument of that call, and the same holds of a number that a call writes behind a pointer; two buffers that
 * are only read may be one. Words are aligned as uint32_t is.
 *
 * Results. A call gives 0, or the number of the first refusal that applies, in this order:
 *
 *     11, 1, 2, 3, 4, 5, 18, 6, 7, 8, 14, 9, 10
 *
 * On a refusal every output, the numbers behind pointers included, holds its old contents.
 *
 * Work words. Key generation, encryption, decryption and the zero test take 8 * n words to work in. A refusal by the
 * length test, which gives 6, or by a test before it in that order leaves them untouched; after every other ending
 * they are zero. It is the place in that order that counts and not the number: 18 leaves them untouched. They need no
 * preparation and may be used again.
 *
 * Blank fields. A count of zero is a finding, and it is encrypted like any other count. A field that was left
 * blank is no count: it goes out under a set with mlen 0, with a message of length 0, and never as zeros. Every
 * call works with mlen 0. Sums have one set: a blank is not one of the summands.
 *
 * Sums. Ciphertexts made under one set (its edition apart) and one public key may be added, the sums again, up to the
 * headroom: the sum of s fresh ciphertexts (one that is added twice counts twice) decrypts to the total of their counts,
 * each modulo l, while s is at most the headroom (giophantus_limits), with a secret key that is a zero of the public
 * key. Past the headroom nothing is promised, and no call can tell that a sum is past it: count the summands.
 *
 * The library allocates nothing, keeps no state and calls nothing but memset and its like (memcpy, memmove), which
 * every C library has. The source of the random octets, the primality of q and equal timing are outside it, and
 * nothing is claimed about secrecy. Two coefficients are added without a test or a jump in the library's source;
 * about the compiled code nothing is claimed.
 */

#ifndef GIOPHANTUS_H
#define GIOPHANTUS_H

#include <stddef.h>
#include <stdint.h>

#ifdef __cplusplus
extern "C" {
#endif

/* A parameter set: see "The set". */
typedef struct giophantus_set {
    uint32_t l, q, n, dx, dr, mlen, edition;
} giophantus_set;

/* The numbers that calls give. Which is given where several refusals apply: see "Results". */
enum giophantus_refusal {
    GIOPHANTUS_OK = 0,               /* success */
    GIOPHANTUS_RANGE = 1,            /* l isn't 2, 4, 8 or 16 */
    GIOPHANTUS_RING = 2,             /* n is outside 2 to 4096 */
    GIOPHANTUS_DEGREE = 3,           /* dx or dr isn't 1 or 2 */
    GIOPHANTUS_MODULUS = 4,          /* q is above 2147483647, or not above the bound */
    GIOPHANTUS_MESSAGE_SIZE = 5,     /* mlen is above n * b or no multiple of b */
    GIOPHANTUS_LENGTH = 6,           /* a buffer, random octets apart, isn't of its exact length */
    GIOPHANTUS_PADDING = 7,          /* a given packed element or message has a non-zero unused bit */
    GIOPHANTUS_COEFFICIENT = 8,      /* a given coefficient is q or more, or l or more where a small one is expected */
    GIOPHANTUS_RANDOM_EXHAUSTED = 9, /* the random octets end before the last draw is complete */
    GIOPHANTUS_TAIL = 10,            /* a decrypted coefficient past mlen bits isn't zero */
    GIOPHANTUS_LINE = 11,            /* the program roomsheet met a malformed line; no call gives it */
    GIOPHANTUS_TOP_COEFFICIENT = 14, /* an element of a given secret key has a zero top coefficient */
    GIOPHANTUS_EDITION = 18          /* the edition isn't 1 or 2 */
};

/*
 * giophantus_check: is this set accepted? There are no buffers. It gives 0, or the first of 1 to 5 and 18 that
 * applies; every other call begins with the same tests.
 */
uint32_t giophantus_check(giophantus_set set);

/*
 * giophantus_limits: the bound and the headroom of a set. With S the sum over k from 0 to D of (k + 1) * n^k * (l -
 * 1)^(k + 1), the bound is B = l - 1 + l * S, and the headroom is the largest whole number s with s * B < q: as many
 * fresh ciphertexts may be added. For an accepted set both fit their 32 bits and the headroom is at least 1. Refusals:
 * 1 to 5, 18.
 */
uint32_t giophantus_limits(giophantus_set set, uint32_t *bound, uint32_t *headroom);

/*
 * giophantus_lengths: the exact lengths that the calls ask for: octets of a secret key, a public key, a message and a
 * ciphertext, and the number of work words (not their octets). With mlen 0 the length of a message is 0. Refusals: 1
 * to 5, 18.
 */
uint32_t giophantus_lengths(giophantus_set set, uint64_t *secret_key, uint64_t *public_key, uint64_t *message,
                            uint64_t *ciphertext, uint64_t *work);

/*
 * giophantus_keygen: make a secret key and a public key from random octets, of which it reads as many as it needs from
 * the front and says in *used how many. It takes ceil(n * b / 8) octets for u_x, then as many for u_y, whose unused
 * bits are ignored; an element with a zero top coefficient is dropped whole and the next octets are taken. Then it
 * takes qlen octets for each coefficient of the public key but those of the constant; a group of qlen octets whose
 * number (modulo 2 to the bit length of q) is q or more is dropped and the next is taken. In edition 2 it goes on in
 * the same way for the n coefficients of the constant, and throws these away: the constant is minus the value of the
 * others at (u_x, u_y) in both. So the number of octets needed is not known beforehand. It says in *dropped_groups how
 * many groups were dropped, and in *dropped_elements how many elements, which is no fault, and so
 *
 *     used = 2 * ceil(n * b / 8) + qlen * (N(dx) - 2 + edition) * n
 *            + qlen * dropped_groups + ceil(n * b / 8) * dropped_elements
 *
 * The secret key that it makes is always a zero of the public key. Octets that were used once must not be used again,
 * those that were dropped or thrown away neither. Refusals, in order: 1 to 5, 18; 6 where secret_key, public_key or work
 * isn't of its exact length; 9 where the octets end too early: call again with the same octets and more behind them.
 * Zeros alone are dropped however many there are, and give 9.
 */
uint32_t giophantus_keygen(giophantus_set set, const uint8_t *random, size_t random_len, uint8_t *secret_key,
                           size_t secret_key_len, uint8_t *public_key, size_t public_key_len, uint32_t *work,
                           size_t work_len, uint64_t *used, uint64_t *dropped_groups, uint64_t *dropped_elements);

/*
 * giophantus_is_zero: does this secret key belong to this public key? *zero is 1 where the value of the public key at
 * (u_x, u_y) is 0 in R_q, and otherwise 0. What is promised of decryption holds for secret keys that have the answer
 * 1. Refusals, in order: 1 to 5, 18; 6 where secret_key, public_key or work isn't of its exact length; 7 where either
 * half of the secret key has a non-zero unused bit; 8 where a coefficient of the public key is q or more; 14 where u_x
 * or u_y has a zero top coefficient.
 */
uint32_t giophantus_is_zero(giophantus_set set, const uint8_t *secret_key, size_t secret_key_len,
                            const uint8_t *public_key, size_t public_key_len, uint32_t *work, size_t work_len,
                            uint32_t *zero);

/*
 * giophantus_encrypt: encrypt a message of mlen / b counts under a public key. It takes random octets as
 * giophantus_keygen does (N(dr) * n draws below q, then N(D) small elements of ceil(n * b / 8) octets each, whose
 * unused bits are ignored and of which none is dropped) and says in *used how many, and in *dropped_groups how many
 * groups were dropped:
 *
 *     used = qlen * N(dr) * n + N(D) * ceil(n * b / 8) + qlen * dropped_groups
 *
 * Octets that were used once must not be used again. A blank field is encrypted under the same set with mlen 0, with
 * message_len 0 and a message pointer that is not null; it must not be encrypted as zeros. Refusals, in order: 1 to 5,
 * 18; 6 where public_key, message, ciphertext or work isn't of its exact length; 7 where the message has a non-zero
 * bit from bit mlen on; 8 where a coefficient of the public key is q or more; 9 where the random octets end too early:
 * call again with the same octets and more behind them.
 */
uint32_t giophantus_encrypt(giophantus_set set, const uint8_t *public_key, size_t public_key_len,
                            const uint8_t *message, size_t message_len, const uint8_t *random, size_t random_len,
                            uint8_t *ciphertext, size_t ciphertext_len, uint32_t *work, size_t work_len,
                            uint64_t *used, uint64_t *dropped_groups);

/*
 * giophantus_add: add two ciphertexts of one set and one public key, coefficient by coefficient modulo q, without
 * decrypting them. a and b may be one buffer; sum is a buffer of its own. It takes no work words and no random octets.
 * It cannot tell how many ciphertexts a or b already sums up, nor that one of them is a blank: the caller keeps the
 * number of summands at or below the headroom and leaves blanks out. Refusals, in order: 1 to 5, 18; 6 where a, b or
 * sum isn't of its exact length; 8 where a coefficient of a or of b is q or more.
 */
uint32_t giophantus_add(giophantus_set set, const uint8_t *a, size_t a_len, const uint8_t *b, size_t b_len,
                        uint8_t *sum, size_t sum_len);

/*
 * giophantus_decrypt: decrypt a ciphertext with a secret key. It takes the value w of the ciphertext at (u_x, u_y),
 * each coefficient as a number 0 to q - 1, and gives each modulo l; the first mlen / b of them are the message. Under
 * a set with mlen 0 a blank decrypts to a message of length 0 (any pointer that is not null). Refusals, in order: 1 to
 * 5, 18; 6 where secret_key, ciphertext, message or work isn't of its exact length; 7 where either half of the secret
 * key has a non-zero unused bit; 8 where a coefficient of the ciphertext is q or more; 14 where u_x or u_y has a zero
 * top coefficient; 10 where a coefficient past mlen bits isn't zero modulo l: a wrong secret key, a wrong mlen, a
 * damaged ciphertext or a sum past the headroom. A decryption that is not refused is no sign that none of these
 * happened.
 */
uint32_t giophantus_decrypt(giophantus_set set, const uint8_t *secret_key, size_t secret_key_len,
                            const uint8_t *ciphertext, size_t ciphertext_len, uint8_t *message, size_t message_len,
                            uint32_t *work, size_t work_len);

/*
 * giophantus_multiply_add: c becomes a * b + c in R_q, three ring elements as words, n each: the product with t^n = 1
 * is added to what c holds, coefficient by coefficient modulo q, in c's own words. a and b stay as they were and may
 * be one buffer; c is a buffer of its own. A small element is a ring element too: its words may be given as they are.
 * Encryption, key generation, decryption and the zero test multiply two elements by the same operation. Refusals, in
 * order: 1 to 5, 18; 6 where a, b or c isn't of its exact length; 8 where a word of a, b or c is q or more. No work
 * words.
 */
uint32_t giophantus_multiply_add(giophantus_set set, const uint32_t *a, size_t a_len, const uint32_t *b,
                                 size_t b_len, uint32_t *c, size_t c_len);

/*
 * giophantus_element_from_octets: the n coefficients of a ring element as words, from its n * qlen octets. A
 * coefficient is all of its qlen octets. Refusals, in order: 1 to 5, 18; 6 where octets or words isn't of its exact
 * length; 8 where a coefficient is q or more. No work words.
 */
uint32_t giophantus_element_from_octets(giophantus_set set, const uint8_t *octets, size_t octets_len,
                                        uint32_t *words, size_t words_len);

/*
 * giophantus_element_to_octets: the n * qlen octets of a ring element, from its n coefficients as words. Refusals, in
 * order: 1 to 5, 18; 6 where words or octets isn't of its exact length; 8 where a word is q or more. No work words.
 */
uint32_t giophantus_element_to_octets(giophantus_set set, const uint32_t *words, size_t words_len, uint8_t *octets,
                                      size_t octets_len);

/*
 * giophantus_small_from_octets: the n coefficients of a small element as words, each below l, from its ceil(n * b / 8)
 * packed octets. Refusals, in order: 1 to 5, 18; 6 where octets or words isn't of its exact length; 7 where an unused
 * bit isn't zero. No work words.
 */
uint32_t giophantus_small_from_octets(giophantus_set set, const uint8_t *octets, size_t octets_len,
                                      uint32_t *words, size_t words_len);

/*
 * giophantus_small_to_octets: the ceil(n * b / 8) packed octets of a small element, from its n coefficients as words;
 * unused bits are written as zero. Counts followed by zeros give a message: its first ceil(mlen / 8) octets. Refusals,
 * in order: 1 to 5, 18; 6 where words or octets isn't of its exact length; 8 where a word is l or more. No work words.
 */
uint32_t giophantus_small_to_octets(giophantus_set set, const uint32_t *words, size_t words_len, uint8_t *octets,
                                    size_t octets_len);

/*
 * giophantus_secret_key_from_octets: the 2 * n coefficients of a secret key as words, u_x and then u_y, each below l,
 * from its octets. Its top coefficients are not judged: giophantus_is_zero and giophantus_decrypt do that. Refusals,
 * in order: 1 to 5, 18; 6 where octets or words isn't of its exact length; 7 where an unused bit of either half isn't
 * zero. No work words.
 */
uint32_t giophantus_secret_key_from_octets(giophantus_set set, const uint8_t *octets, size_t octets_len,
                                           uint32_t *words, size_t words_len);

/*
 * giophantus_secret_key_to_octets: the octets of a secret key, from its 2 * n coefficients as words, u_x and then u_y;
 * the unused bits of each half are written as zero. Its top coefficients are not judged. Refusals, in order: 1 to 5,
 * 18; 6 where words or octets isn't of its exact length; 8 where a word is l or more. No work words.
 */
uint32_t giophantus_secret_key_to_octets(giophantus_set set, const uint32_t *words, size_t words_len,
                                         uint8_t *octets, size_t octets_len);

/*
 * giophantus_public_key_from_octets: the N(dx) * n coefficients of a public key as words, element by element, from its
 * octets. Refusals, in order: 1 to 5, 18; 6 where octets or words isn't of its exact length; 8 where a coefficient is
 * q or more. No work words.
 */
uint32_t giophantus_public_key_from_octets(giophantus_set set, const uint8_t *octets, size_t octets_len,
                                           uint32_t *words, size_t words_len);

/*
 * giophantus_public_key_to_octets: the octets of a public key, from its N(dx) * n coefficients as words. Refusals, in
 * order: 1 to 5, 18; 6 where words or octets isn't of its exact length; 8 where a word is q or more. No work words.
 */
uint32_t giophantus_public_key_to_octets(giophantus_set set, const uint32_t *words, size_t words_len,
                                         uint8_t *octets, size_t octets_len);

/*
 * giophantus_ciphertext_from_octets: the N(D) * n coefficients of a ciphertext as words, element by element, from its
 * octets. Refusals, in order: 1 to 5, 18; 6 where octets or words isn't of its exact length; 8 where a coefficient is
 * q or more. No work words.
 */
uint32_t giophantus_ciphertext_from_octets(giophantus_set set, const uint8_t *octets, size_t octets_len,
                                           uint32_t *words, size_t words_len);

/*
 * giophantus_ciphertext_to_octets: the octets of a ciphertext, from its N(D) * n coefficients as words. Refusals, in
 * order: 1 to 5, 18; 6 where words or octets isn't of its exact length; 8 where a word is q or more. No work words.
 */
uint32_t giophantus_ciphertext_to_octets(giophantus_set set, const uint32_t *words, size_t words_len,
                                         uint8_t *octets, size_t octets_len);

#ifdef __cplusplus
}
#endif

#endif
