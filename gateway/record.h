/*
 * record.h: numbers and octets one after the other, for the saved state: written into memory that grows, and read from memory
 * whose end is never passed. Numbers have their high octet first.
 */
#ifndef RECORD_H
#define RECORD_H

#include <stdbool.h>
#include <stddef.h>
#include <stdint.h>

typedef struct {
    uint8_t *octets;
    size_t length, room;
    bool is_bad; /* there was no memory: nothing more is written */
} record;

void record_put8(record *to, uint32_t value);
void record_put16(record *to, uint32_t value);
void record_put32(record *to, uint32_t value);
void record_put64(record *to, uint64_t value);
void record_put(record *to, const void *octets, size_t length);

/* Room for so many octets after what is written; NULL: there is no memory. What is used of it counts once it is added. */
uint8_t *record_room(record *to, size_t length);
void record_add(record *to, size_t length);
void record_free(record *own);

typedef struct {
    const uint8_t *at;
    size_t left;
    bool is_bad; /* the end was passed: all that is read from then on is 0 */
} record_reader;

uint8_t record_get8(record_reader *from);
uint32_t record_get16(record_reader *from);
uint32_t record_get32(record_reader *from);
uint64_t record_get64(record_reader *from);
const uint8_t *record_get(record_reader *from, size_t length); /* NULL: there are not so many */

/* A check of octets: CRC-64 as ECMA-182 has it, from the low bit. */
uint64_t record_check(const uint8_t *octets, size_t length);

#endif
