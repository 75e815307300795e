/*
 * wires.h: the ways of frames between our cards and the kernel's devices: packets of UDP, as l1oip has them, or sockets of layer 1
 * at devices of our own. Some frames are lost. All our cards are at all wires, as terminals at a bus are.
 */
#ifndef WIRES_H
#define WIRES_H

#include <stdbool.h>
#include <stddef.h>
#include <stdint.h>

enum { MOST_WIRES = 8 };

typedef struct {
    unsigned sent, heard, lost;
} wire_counts;

/* A socket of mISDN, at a device of the kernel's; the program ends if there is none. */
int isdn_socket(int protocol, int device, int sapi, int tei);

void wires_open(void);
void wires_close(void);
int wires_file(int wire);
wire_counts wires_count(void);

/* From now on no frame is lost. */
void wires_settle(void);

/* Whether the next frame is lost; it counts as lost then, otherwise as heard. */
bool wires_lose_heard(int wire, const uint8_t *frame, size_t length);

/* Whether layer 1 has a frame that it has not confirmed. */
bool wires_are_full(void);

/* A frame of ours goes on each wire; `reached` is told of those on which it isn't lost. */
void wires_send(const uint8_t *frame, size_t length, void (*reached)(int wire, const uint8_t *frame, size_t length));

/* Reads all that has come: `came` is told of each frame, and `has_room` that layer 1 has room again. */
void wires_read(void (*came)(int wire, const uint8_t *frame, size_t length), void (*has_room)(void));

#endif
