/* Fletcher-32 as a C programmer would write it: remainders are taken once for many words. */
#include "plain_check.h"

uint32_t plain_check(const uint8_t *bytes, size_t length)
{
    uint64_t a = 0, b = 0;
    size_t words = length / 2, i = 0;

    while (i < words) {
        /* b grows by at most 4,096 * (65,534 + 4,096 * 65,535) here, far below 2 to the 64 */
        size_t end = words - i > 4096 ? i + 4096 : words;
        for (; i < end; i++) {
            a += bytes[2 * i] | (uint32_t)bytes[2 * i + 1] << 8;
            b += a;
        }
        a %= 65535;
        b %= 65535;
    }
    if (length % 2) {
        a = (a + bytes[length - 1]) % 65535;
        b = (b + a) % 65535;
    }
    return (uint32_t)(a | b << 16);
}
