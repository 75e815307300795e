/* octets.h: numbers as octets, the high one first, as IUA, captures and the saved state have them. */
#ifndef OCTETS_H
#define OCTETS_H

#include <stdint.h>

static inline uint32_t octets_get16(const uint8_t *at) {
    return (uint32_t)at[0] << 8 | at[1];
}

static inline uint32_t octets_get32(const uint8_t *at) {
    return octets_get16(at) << 16 | octets_get16(at + 2);
}

static inline uint64_t octets_get64(const uint8_t *at) {
    return (uint64_t)octets_get32(at) << 32 | octets_get32(at + 4);
}

static inline void octets_put16(uint8_t *at, uint32_t value) {
    at[0] = (uint8_t)(value >> 8);
    at[1] = (uint8_t)value;
}

static inline void octets_put32(uint8_t *at, uint32_t value) {
    octets_put16(at, value >> 16);
    octets_put16(at + 2, value);
}

static inline void octets_put64(uint8_t *at, uint64_t value) {
    octets_put32(at, (uint32_t)(value >> 32));
    octets_put32(at + 4, (uint32_t)value);
}

#endif
