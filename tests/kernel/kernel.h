/*
 * kernel.h: the kernel's layer 2, and what its layer 3, which is here, knows of its links. It judges what the kernel tells, and
 * hands the messages that come to their judge.
 */
#ifndef KERNEL_H
#define KERNEL_H

#include <stdbool.h>
#include <stddef.h>
#include <stdint.h>

enum { MOST_KERNEL_LINKS = 80 };

/* A link of the kernel's. Of a terminal, a socket has one; of its network, one socket has all, each with a channel, and link 0 is
 * the socket itself. */
typedef struct {
    int file, device, channel, service, tei; /* the TEI is 127 while there is none */
    bool is_up, is_establishing, is_releasing;
    bool is_gone; /* the kernel's network has taken the TEI away, of which it does not always tell */
} kernel_link;

extern kernel_link kernel_links[MOST_KERNEL_LINKS];
extern int kernel_link_count;

void kernel_open(void);
void kernel_close(void);

/* The sockets from which something may come: their number, and the file of each. */
int kernel_files(void);

/* Reads all that the kernel has told. */
void kernel_read(void);

/* Layer 3 asks for something of a link; or its network sends unit data to all. */
void kernel_ask(kernel_link *link, uint32_t primitive, const uint8_t *octets, size_t length);
void kernel_ask_group(const uint8_t *octets, size_t length);

/* A frame of ours reached a device of the kernel's; or one of the kernel's is on the wire. Those that take TEIs away are noted. */
void kernel_is_reached(int device, const uint8_t *frame, size_t length);
void kernel_sends(const uint8_t *frame, size_t length);

/* How often two terminals had one TEI; how often layer 1 went down. */
unsigned kernel_doubled(void);
unsigned kernel_deactivations(void);

#endif
