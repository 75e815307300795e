/*
 * bare.c: what lapd.c asks of a program that has no C library. GCC also calls the three functions of memory by itself, and
 * helpers of its own, which -lgcc has.
 */
#include <stddef.h>
#include <stdint.h>

void abort(void);
void *memcpy(void *to, const void *from, size_t count);
void *memmove(void *to, const void *from, size_t count);
void *memset(void *to, int octet, size_t count);

/* No run has come here: a real board starts again, and tells of it. */
void abort(void) {
    for (;;)
        ;
}

void *memcpy(void *to, const void *from, size_t count) {
    uint8_t *at = to;
    for (const uint8_t *octet = from; count > 0; count--)
        *at++ = *octet++;
    return to;
}

void *memmove(void *to, const void *from, size_t count) {
    uint8_t *at = to;
    const uint8_t *octets = from;
    if ((uintptr_t)to <= (uintptr_t)from)
        return memcpy(to, from, count);
    while (count-- > 0)
        at[count] = octets[count];
    return to;
}

void *memset(void *to, int octet, size_t count) {
    for (uint8_t *at = to; count > 0; count--)
        *at++ = (uint8_t)octet;
    return to;
}
