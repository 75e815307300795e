/* record.c: numbers and octets, one after the other. See record.h. */
#include "record.h"

#include <stdlib.h>
#include <string.h>

#include "octets.h"

enum { FIRST_ROOM = 1 << 16 };

/* ---- Written ------------------------------------------------------------------------------------------------------------ */

uint8_t *record_room(record *to, size_t length) {
    size_t room = to->room == 0 ? FIRST_ROOM : to->room;
    while (room - to->length < length)
        room *= 2;
    if (room != to->room && !to->is_bad) {
        uint8_t *octets = realloc(to->octets, room);
        to->is_bad = octets == NULL;
        if (octets != NULL) {
            to->octets = octets;
            to->room = room;
        }
    }
    return to->is_bad ? NULL : to->octets + to->length;
}

void record_add(record *to, size_t length) {
    to->length += length;
}

void record_put(record *to, const void *octets, size_t length) {
    uint8_t *at = record_room(to, length);
    if (at == NULL)
        return;
    if (length > 0)
        memcpy(at, octets, length);
    record_add(to, length);
}

void record_put8(record *to, uint32_t value) {
    uint8_t octet = (uint8_t)value;
    record_put(to, &octet, 1);
}

void record_put16(record *to, uint32_t value) {
    uint8_t octets[2];
    octets_put16(octets, value);
    record_put(to, octets, sizeof octets);
}

void record_put32(record *to, uint32_t value) {
    uint8_t octets[4];
    octets_put32(octets, value);
    record_put(to, octets, sizeof octets);
}

void record_put64(record *to, uint64_t value) {
    uint8_t octets[8];
    octets_put64(octets, value);
    record_put(to, octets, sizeof octets);
}

void record_free(record *own) {
    free(own->octets);
    *own = (record){NULL, 0, 0, false};
}

/* ---- Read --------------------------------------------------------------------------------------------------------------- */

const uint8_t *record_get(record_reader *from, size_t length) {
    const uint8_t *at = from->at;
    if (from->is_bad || length > from->left) {
        from->is_bad = true;
        return NULL;
    }
    from->at += length;
    from->left -= length;
    return at;
}

uint8_t record_get8(record_reader *from) {
    const uint8_t *at = record_get(from, 1);
    return at == NULL ? 0 : *at;
}

uint32_t record_get16(record_reader *from) {
    const uint8_t *at = record_get(from, 2);
    return at == NULL ? 0 : octets_get16(at);
}

uint32_t record_get32(record_reader *from) {
    const uint8_t *at = record_get(from, 4);
    return at == NULL ? 0 : octets_get32(at);
}

uint64_t record_get64(record_reader *from) {
    const uint8_t *at = record_get(from, 8);
    return at == NULL ? 0 : octets_get64(at);
}

/* ---- The check ---------------------------------------------------------------------------------------------------------- */

uint64_t record_check(const uint8_t *octets, size_t length) {
    static uint64_t table[256];
    uint64_t check = UINT64_MAX;
    for (unsigned i = 0; table[1] == 0 && i < 256; i++) {
        uint64_t value = 255 - i;
        for (unsigned bit = 0; bit < 8; bit++)
            value = value >> 1 ^ (value & 1 ? UINT64_C(0xC96C5795D7870F42) : 0);
        table[255 - i] = value;
    }
    for (size_t i = 0; i < length; i++)
        check = check >> 8 ^ table[(check ^ octets[i]) & 0xFF];
    return ~check;
}
