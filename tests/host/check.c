/* Compares block_check with the published Fletcher-32 vectors, and with a plain version written here from the rule.
   Prints the first difference and the count of comparisons; exits 1 on any difference. It is C and C++. */
#include "record_desk.h"
#include "record_desk.h" /* once more: the header may be included twice */

#include <stdio.h>
#include <stdlib.h>
#include <string.h>

#ifdef __cplusplus
#define LANGUAGE "C++"
#else
#define LANGUAGE "C"
#endif

enum { LARGEST = 1 << 20 };

static unsigned long compared, differing;

/* From a = b = 0: a becomes (a + w) mod 65,535, then b becomes (b + a) mod 65,535, for each word w. */
static uint32_t plain(const uint8_t *bytes, size_t length)
{
    uint32_t a = 0, b = 0;
    for (size_t i = 0; i < length; i += 2) {
        uint32_t high = i + 1 < length ? bytes[i + 1] : 0;
        a = (a + bytes[i] + 256 * high) % 65535;
        b = (b + a) % 65535;
    }
    return a + 65536 * b;
}

static void compare(const char *what, const uint8_t *bytes, size_t length, uint32_t expected)
{
    uint32_t found = block_check(bytes, length);
    compared++;
    if (found != expected && differing++ == 0)
        printf("check: %s, %zu bytes: 0x%08lX, expected 0x%08lX\n", what, length, (unsigned long)found, (unsigned long)expected);
}

static void vector(const char *text, uint32_t expected)
{
    compare(text, (const uint8_t *)text, strlen(text), expected);
}

/* The same random bytes on every machine. */
static uint32_t state = 20251115;

static uint8_t next_byte(void)
{
    state = state * 1664525u + 1013904223u;
    return (uint8_t)(state >> 24);
}

static void against_plain(const char *what, const uint8_t *bytes, size_t length)
{
    compare(what, bytes, length, plain(bytes, length));
}

int main(void)
{
    static const size_t large[] = {8190, 8191, 8192, 8193, 8194, 16383, 16384, 16385, 65023, 65024, 65535, 65536, 65537, 100001,
        524287, LARGEST - 1, LARGEST};
    uint8_t *random = (uint8_t *)malloc(LARGEST), *ones = (uint8_t *)malloc(LARGEST), *zeros = (uint8_t *)calloc(LARGEST, 1);

    if (!random || !ones || !zeros)
        return 2;
    for (size_t i = 0; i < LARGEST; i++)
        random[i] = next_byte();
    memset(ones, 255, LARGEST);

    vector("abcde", 0xF04FC729u);
    vector("abcdef", 0x56502D2Au);
    vector("abcdefgh", 0xEBE19591u);
    vector("", 0);
    vector("a", 'a' + 65536u * 'a');
    compare("a null pointer", NULL, 0, 0);

    /* every length to 3,000, odd ones too; the random strings start at places that are not aligned */
    for (size_t length = 0; length <= 3000; length++) {
        against_plain("random", random + length % 7, length);
        against_plain("255", ones, length);
        against_plain("0", zeros, length);
    }

    /* one byte that is not zero, at each place of a block */
    for (size_t i = 0; i < 508; i++) {
        zeros[i] = 255;
        against_plain("one byte", zeros, 508);
        zeros[i] = 0;
    }

    /* lengths about those at which remainders are taken, and large ones */
    for (size_t i = 0; i < sizeof large / sizeof large[0]; i++) {
        against_plain("random", random, large[i]);
        against_plain("255", ones, large[i]);
    }

    printf("check, as %s: %lu comparisons, %lu differ\n", LANGUAGE, compared, differing);
    free(random);
    free(ones);
    free(zeros);
    return differing != 0;
}
