/* numbered.h: a numbered message: who sent it, at which line, the how manieth it is there, and when, in microseconds of the
 * system's monotonic clock. It is no message of Q.931. The judge's records have the same numbers (records.py). */
#ifndef NUMBERED_H
#define NUMBERED_H

#include <stdbool.h>
#include <stddef.h>
#include <stdint.h>
#include <string.h>

enum { NUMBERED_MARK = 0x41, NUMBERED_LEAST = 19 };

typedef struct {
    uint16_t source; /* 0: the end of the line; else a server */
    uint32_t line, number;
    uint64_t moment;
} numbered;

static inline void numbered_set(uint8_t *to, uint64_t value, int octets) {
    for (int i = 0; i < octets; i++)
        to[i] = (uint8_t)(value >> 8 * (octets - 1 - i));
}

static inline uint64_t numbered_get(const uint8_t *from, int octets) {
    uint64_t value = 0;
    for (int i = 0; i < octets; i++)
        value = value << 8 | from[i];
    return value;
}

/* Writes a message of so many octets, NUMBERED_LEAST at least. */
static inline void numbered_write(const numbered *message, uint8_t *octets, size_t length) {
    octets[0] = NUMBERED_MARK;
    numbered_set(octets + 1, message->source, 2);
    numbered_set(octets + 3, message->line, 4);
    numbered_set(octets + 7, message->number, 4);
    numbered_set(octets + 11, message->moment, 8);
    memset(octets + NUMBERED_LEAST, (int)(message->number & 0xFF), length - NUMBERED_LEAST);
}

/* False: the octets are another message. */
static inline bool numbered_read(const uint8_t *octets, size_t length, numbered *message) {
    if (length < NUMBERED_LEAST || octets[0] != NUMBERED_MARK)
        return false;
    message->source = (uint16_t)numbered_get(octets + 1, 2);
    message->line = (uint32_t)numbered_get(octets + 3, 4);
    message->number = (uint32_t)numbered_get(octets + 7, 4);
    message->moment = numbered_get(octets + 11, 8);
    return true;
}

#endif
