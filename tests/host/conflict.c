/* Compares hold_conflict with a plain version written here from the rule: modes by a table, numbers shared one by one and not by the ends.
   Prints the first difference and the count of comparisons; exits 1 on any difference. It is C and C++. */
#include "record_desk.h"
#include "record_desk.h" /* once more: the header may be included twice */

#include <stdio.h>

#ifdef __cplusplus
#define LANGUAGE "C++"
#else
#define LANGUAGE "C"
#endif

struct hold {
    uint32_t mode, low, high;
};

static unsigned long compared, differing;

static int in_range(uint32_t end)
{
    return 1 <= end && end <= 256;
}

/* Mode 1, 2 or 3, an interval within 1 to 256, low not above high. */
static int is_hold(struct hold h)
{
    return 1 <= h.mode && h.mode <= 3 && in_range(h.low) && in_range(h.high) && !(h.low > h.high);
}

static int has(struct hold h, uint32_t number)
{
    return h.low <= number && number <= h.high;
}

/* Whether holds of two modes exclude each other where their intervals share a number: two readers do not, nor do two adders. */
static const int excludes[3][3] = {
    /* reading, writing, adding */
    {0, 1, 1}, /* reading */
    {1, 1, 1}, /* writing */
    {1, 1, 0}, /* adding */
};

static uint32_t plain(struct hold a, struct hold b)
{
    if (!is_hold(a) || !is_hold(b))
        return 10;
    if (!excludes[a.mode - 1][b.mode - 1])
        return 0;
    for (uint32_t number = 1; number <= 256; number++)
        if (has(a, number) && has(b, number))
            return 1;
    return 0;
}

static void compare(struct hold a, struct hold b)
{
    uint32_t found = hold_conflict(a.mode, a.low, a.high, b.mode, b.low, b.high), expected = plain(a, b);
    compared++;
    if (found != expected && differing++ == 0)
        printf("conflict: mode %lu [%lu,%lu] with mode %lu [%lu,%lu]: %lu, expected %lu\n", (unsigned long)a.mode,
            (unsigned long)a.low, (unsigned long)a.high, (unsigned long)b.mode, (unsigned long)b.low,
            (unsigned long)b.high, (unsigned long)found, (unsigned long)expected);
}

/* Every pair of modes, on two intervals. */
static void all_modes(uint32_t low, uint32_t high, uint32_t low2, uint32_t high2)
{
    static const uint32_t modes[] = {0, 1, 2, 3, 4, 5, 255, 256, 257, 259, 65537, 65539, UINT32_MAX};
    enum { MODES = sizeof modes / sizeof modes[0] };

    for (int i = 0; i < MODES; i++)
        for (int j = 0; j < MODES; j++) {
            struct hold a = {modes[i], low, high}, b = {modes[j], low2, high2};
            compare(a, b);
        }
}

/* Every pair of intervals whose four ends are among these. */
static void all_intervals(const uint32_t *ends, int count)
{
    for (int i = 0; i < count; i++)
        for (int j = 0; j < count; j++)
            for (int k = 0; k < count; k++)
                for (int m = 0; m < count; m++)
                    all_modes(ends[i], ends[j], ends[k], ends[m]);
}

int main(void)
{
    static const uint32_t small[] = {0, 1, 2, 3, 4, 5, 6, 7};
    static const uint32_t large[] = {0, 1, 2, 128, 255, 256, 257, 65535, 65536, 65537, 65792, UINT32_MAX};

    all_intervals(small, sizeof small / sizeof small[0]);
    all_intervals(large, sizeof large / sizeof large[0]);
    printf("conflict, as %s: %lu comparisons, %lu differ\n", LANGUAGE, compared, differing);
    return differing != 0;
}
