#ifndef PLAIN_CHECK_H
#define PLAIN_CHECK_H

#include <stddef.h>
#include <stdint.h>

uint32_t plain_check(const uint8_t *bytes, size_t length);

#endif
