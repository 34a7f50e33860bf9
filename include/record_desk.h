/* The record desk's functions that C and C++ may call. Link the static libraries that `tools/programs octets_c locks_c` puts into target/staticlib. */
#ifndef RECORD_DESK_H
#define RECORD_DESK_H

#include <stddef.h>
#include <stdint.h>

#ifdef __cplusplus
extern "C" {
#endif

/* The check of a block file (liboctets.a): Fletcher-32 of `length` bytes, as sixteen-bit words, low byte first;
   an odd last byte is followed by a zero. Of no bytes it is 0. Where `length` is 0, nothing is read, and `bytes` may be null. */
uint32_t block_check(const uint8_t *bytes, size_t length);

/* Whether two holds conflict (liblocks.a): 1 where their intervals share a number, unless both are reading or both are
   adding; else 0. A mode is 1 for reading, 2 for writing, 3 for adding; an interval has both its ends in 1 to 256, and low is
   at most high. 10 where one of the six numbers says otherwise. */
uint32_t hold_conflict(uint32_t mode, uint32_t low, uint32_t high, uint32_t mode2, uint32_t low2, uint32_t high2);

#ifdef __cplusplus
}
#endif

#endif
