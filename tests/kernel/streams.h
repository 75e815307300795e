/*
 * streams.h: the judge of messages. Each message is made of its way, service, TEI and number, so that whoever takes it can tell
 * which it is. Data of a link come in order and once each. Some may be missing, if the sender was told since they were sent
 * that the link went down, came up, or came up anew. Unit data come in order, and may be missing.
 */
#ifndef STREAMS_H
#define STREAMS_H

#include <stddef.h>
#include <stdint.h>

typedef enum { TO_KERNEL, TO_OURS } way;

enum { LONGEST_MESSAGE = 264, CALLS = 0, PACKETS = 1, SERVICES = 2, TEIS = 128, GROUP = 127 };

typedef struct {
    unsigned in, out, lost;    /* data that came to ours and to the kernel, and those that were given up */
    unsigned units, units_got; /* unit data that were sent, and that came */
} stream_counts;

void streams_begin(unsigned seed);

/* The next message that goes: its octets, and how long it is. It counts as sent; streams_unsent takes the last one back. */
size_t data_to_send(way to, int service, int tei, uint8_t octets[LONGEST_MESSAGE]);
size_t unit_to_send(way to, int service, int tei, uint8_t octets[LONGEST_MESSAGE]);
void data_unsent(way to, int service, int tei);
void unit_unsent(way to, int service, int tei);

/* The sender was told of its link: what it has sent until now may be lost. */
void streams_told(way to, int service, int tei);

/* Two terminals have this TEI: what comes there is not judged any more, nor unit data of any. */
void streams_tei_twice(int tei);
int is_a_tei_twice(void);

/* Data came; before a gap to ours is judged, `read_kernel` reads what the kernel told and was not read yet. */
void data_came(way to, int service, int tei, const uint8_t *octets, size_t length, void (*read_kernel)(void));

/* Unit data came, for one TEI or for the group; `receiver` is one of 96 of them. */
enum { RECEIVERS = 96 };
void unit_came(way to, int service, int tei, const uint8_t *octets, size_t length);
void group_unit_came(way to, int service, int receiver, const uint8_t *octets, size_t length);

/* Whether these are the next unit data for the TEI alone; if so, they have come. */
int is_unit_of(way to, int service, int tei, const uint8_t *octets, size_t length);

/* In the end: what is missing is a fault. If `all_units`, so are unit data. */
stream_counts streams_end(int all_units);

#endif
