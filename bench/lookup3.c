/* The checksum of the format in C, as the standard library computes it: Bob Jenkins' lookup3 with initial value 0.
   `lookup3 LENGTH COUNT` sums so many bytes, at most 4,096, so often. */
#include <stdint.h>
#include <stdio.h>
#include <stdlib.h>
#include <string.h>

static uint32_t rotate(uint32_t x, int k) { return x << k | x >> (32 - k); }

static uint32_t word(const uint8_t *b)
{
    uint32_t x;
    memcpy(&x, b, 4);
    return x;
}

__attribute__((noinline)) uint32_t lookup3(const uint8_t *b, size_t n)
{
    uint32_t a = 0xdeadbeef + (uint32_t)n, x = a, c = a;
    uint8_t last[12] = {0};
    if (n == 0)
        return c;
    for (; n > 12; b += 12, n -= 12) {
        a += word(b), x += word(b + 4), c += word(b + 8);
        a -= c, a ^= rotate(c, 4), c += x;
        x -= a, x ^= rotate(a, 6), a += c;
        c -= x, c ^= rotate(x, 8), x += a;
        a -= c, a ^= rotate(c, 16), c += x;
        x -= a, x ^= rotate(a, 19), a += c;
        c -= x, c ^= rotate(x, 4), x += a;
    }
    memcpy(last, b, n);
    a += word(last), x += word(last + 4), c += word(last + 8);
    c ^= x, c -= rotate(x, 14);
    a ^= c, a -= rotate(c, 11);
    x ^= a, x -= rotate(a, 25);
    c ^= x, c -= rotate(x, 16);
    a ^= c, a -= rotate(c, 4);
    x ^= a, x -= rotate(a, 14);
    c ^= x, c -= rotate(x, 24);
    return c;
}

int main(int count, char **words)
{
    uint8_t bytes[4096];
    size_t length = count > 1 ? (size_t)atol(words[1]) : 0;
    long times = count > 2 ? atol(words[2]) : 1;
    uint32_t sum = 0;
    if (length > sizeof bytes || lookup3((const uint8_t *)"Four score and seven years ago", 30) != 0x17770551)
        return 1;
    for (size_t k = 0; k < sizeof bytes; k++)
        bytes[k] = (uint8_t)(37 * k + 1);
    for (long t = 0; t < times; t++) {
        bytes[0] = (uint8_t)t;
        sum ^= lookup3(bytes, length);
    }
    printf("%08x\n", sum);
    return 0;
}
