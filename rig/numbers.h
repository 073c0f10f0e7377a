/* Numbers as the file and the log hold them, low byte first. */
#ifndef RIG_NUMBERS_H
#define RIG_NUMBERS_H

#include "system.h"

static inline uint32_t get16(const uint8_t *bytes)
{
    return (uint32_t)bytes[0] | (uint32_t)bytes[1] << 8;
}

static inline uint32_t get32(const uint8_t *bytes)
{
    return get16(bytes) | get16(bytes + 2) << 16;
}

static inline uint64_t get64(const uint8_t *bytes)
{
    return (uint64_t)get32(bytes) | (uint64_t)get32(bytes + 4) << 32;
}

static inline void put16(uint8_t *bytes, uint32_t number)
{
    bytes[0] = (uint8_t)number;
    bytes[1] = (uint8_t)(number >> 8);
}

static inline void put32(uint8_t *bytes, uint32_t number)
{
    put16(bytes, number);
    put16(bytes + 2, number >> 16);
}

static inline void put64(uint8_t *bytes, uint64_t number)
{
    put32(bytes, (uint32_t)number);
    put32(bytes + 4, (uint32_t)(number >> 32));
}

#endif
