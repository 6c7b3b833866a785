/* Prints lines for roomsheet, the same ones each time: mostly sets near acceptance, half of them with their edition, some
   refused, a few malformed.  Usage: roomsheet_lines COUNT */

#include <stdint.h>
#include <stdio.h>
#include <stdlib.h>

static uint64_t state = 1;

static uint64_t number(void)
{
    uint64_t z = state += 0x9E3779B97F4A7C15u;

    z = (z ^ z >> 30) * 0xBF58476D1CE4E5B9u;
    z = (z ^ z >> 27) * 0x94D049BB133111EBu;
    return z ^ z >> 31;
}

static uint32_t below(uint32_t limit)
{
    return (uint32_t)(number() % limit);
}

int main(int argc, char **argv)
{
    static const uint32_t ranges[] = {2, 4, 8, 16, 2, 4, 2, 3};
    static const uint32_t rings[] = {4, 16, 64, 256, 1024, 4096, 4096, 5000};
    static const char *const editions[16] = {"",   "",   "",   "",   "",   "",   "",   "",
                                             " 1", " 2", " 1", " 2", " 1", " 2", " 3", " 2 1"};
    long count = argc > 1 ? atol(argv[1]) : 10;

    while (count-- > 0) {
        uint32_t l = ranges[below(8)], n = 2 + below(rings[below(8)]);
        uint32_t q = below(2) ? 2147483647 - below(1000) : below(UINT32_MAX);
        uint32_t mlen = below(8) == 0 ? below(4 * n) : 12 * (below(n) / 12);

        if (below(64) == 0)
            printf("%u %u 0%u %u %u\n", l, q, n, 1 + below(2), mlen);
        else
            printf("%u %u %u %u %u %u%s\n", l, q, n, 1 + below(2), 1 + below(2), mlen, editions[below(16)]);
    }
    return fflush(stdout) != 0;
}
