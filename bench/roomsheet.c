/* roomsheet: for each line "l q n dX dr mlen" or "l q n dX dr mlen edition" of standard input, print
   "0 bound headroom" or the refusal number.  gcc -O2 -o roomsheet roomsheet.c */

#include <stdint.h>
#include <stdio.h>
#include <string.h>

#define BLOCK 65536
#define MAX_LINE 80
#define MAX_Q 2147483647u

static char in_buf[MAX_LINE + 1 + BLOCK];
static char out_buf[BLOCK];
static size_t out_len;
static int out_failed;

static void flush_out(void)
{
    if (fwrite(out_buf, 1, out_len, stdout) != out_len)
        out_failed = 1;
    out_len = 0;
}

static void put_number(uint32_t x)
{
    char digits[10];
    int i = 0;

    do {
        digits[i++] = (char)('0' + x % 10);
        x /= 10;
    } while (x != 0);
    while (i > 0)
        out_buf[out_len++] = digits[--i];
}

/* Reads six or seven numbers with single spaces between, without the seventh as edition 1; 0 if the line is malformed. */
static int parse(const char *p, const char *end, uint32_t set[7])
{
    int i;

    if (end - p > MAX_LINE)
        return 0;
    set[6] = 1;
    for (i = 0; i < 7; i++) {
        const char *start;
        uint64_t x = 0;

        if (i == 6 && p == end)
            break;
        if (i > 0) {
            if (p == end || *p != ' ')
                return 0;
            p++;
        }
        start = p;
        while (p < end && *p >= '0' && *p <= '9') {
            x = x * 10 + (uint64_t)(*p - '0');
            if (x > UINT32_MAX)
                return 0;
            p++;
        }
        if (p == start || (*start == '0' && p - start > 1))
            return 0;
        set[i] = (uint32_t)x;
    }
    return p == end;
}

/* The refusal number, or 0 with the bound and the headroom. */
static int limits(const uint32_t set[7], uint32_t *bound, uint32_t *headroom)
{
    uint32_t l = set[0], q = set[1], n = set[2];
    uint32_t dx = set[3], dr = set[4], mlen = set[5], edition = set[6];
    uint32_t b, k;
    unsigned __int128 s = 0, power, big;

    switch (l) {
    case 2: b = 1; break;
    case 4: b = 2; break;
    case 8: b = 3; break;
    case 16: b = 4; break;
    default: return 1;
    }
    if (n < 2 || n > 4096)
        return 2;
    if (dx < 1 || dx > 2 || dr < 1 || dr > 2)
        return 3;

    power = l - 1;
    for (k = 0; k <= dx + dr; k++) {
        s += (k + 1) * power;
        power *= n * (l - 1);
    }
    big = l - 1 + l * s;
    if (q > MAX_Q || q <= big)
        return 4;
    if (mlen > n * b || mlen % b != 0)
        return 5;
    if (edition != 1 && edition != 2)
        return 18;

    *bound = (uint32_t)big;
    *headroom = (q - 1) / *bound;
    return 0;
}

static void answer(const char *line, const char *end)
{
    uint32_t set[7], bound, headroom;
    int refusal = 11;

    if (out_len > BLOCK - 32)
        flush_out();
    if (parse(line, end, set))
        refusal = limits(set, &bound, &headroom);
    put_number((uint32_t)refusal);
    if (refusal == 0) {
        out_buf[out_len++] = ' ';
        put_number(bound);
        out_buf[out_len++] = ' ';
        put_number(headroom);
    }
    out_buf[out_len++] = '\n';
}

int main(void)
{
    /* An unfinished line is carried to the front of the next block.  Of an
       overlong one, MAX_LINE + 1 octets are enough. */
    size_t carry = 0, got;

    while ((got = fread(in_buf + carry, 1, BLOCK, stdin)) > 0) {
        char *line = in_buf, *end = in_buf + carry + got;
        char *scan = in_buf + carry, *newline;

        while ((newline = memchr(scan, '\n', (size_t)(end - scan))) != NULL) {
            answer(line, newline);
            line = scan = newline + 1;
        }
        carry = (size_t)(end - line);
        if (carry > MAX_LINE + 1)
            carry = MAX_LINE + 1;
        memmove(in_buf, line, carry);
    }
    if (carry > 0)
        answer(in_buf, in_buf + carry);
    flush_out();
    if (ferror(stdin) || fflush(stdout) != 0 || out_failed) {
        fputs("roomsheet: input or output failed\n", stderr);
        return 1;
    }
    return 0;
}
