/*
 * HDLC in plain C, bit by bit: what a terminal sends, and what a listener hears. For tests alone; written from the rules
 * of docs/MACHINE.md ("Bits and frames"), not from the library's code.
 */
#ifndef HDLC_H
#define HDLC_H

#include <stdbool.h>
#include <stddef.h>
#include <stdint.h>

#ifdef __cplusplus
extern "C" {
#endif

enum {
    HDLC_MOST_OCTETS = 1028,                               /* of a frame without its check */
    HDLC_MOST_BITS = (HDLC_MOST_OCTETS + 2) * 8 * 6 / 5 + 32 /* stuffed, with flags and what was left over */
};

/* The bits that a terminal has to send, one an element. */
typedef struct {
    unsigned char bits[HDLC_MOST_BITS];
    size_t from, to;
} hdlc_sender;

/* A sender that begins with a flag. */
void hdlc_begin(hdlc_sender *sender);

/* Whether eight bits or more are left, or some bit of a frame is. */
bool hdlc_busy(const hdlc_sender *sender);

/* Adds a frame with its check and a closing flag after what is left. */
void hdlc_load(hdlc_sender *sender, const uint8_t *frame, size_t length);

/* The next eight bits; a flag is begun where fewer are left. */
uint8_t hdlc_octet(hdlc_sender *sender);

/* The number of bits that are left. */
size_t hdlc_left(const hdlc_sender *sender);

/* A listener: the bits since the latest flag, as they stand on the line. */
typedef struct {
    unsigned char gap[HDLC_MOST_BITS];
    size_t count;
    unsigned latest; /* the latest eight bits, the latest as bit 0 */
    unsigned seen;   /* how many bits came, up to 8 */
    bool open;       /* a flag came, and no abort since */
    uint8_t frame[HDLC_MOST_OCTETS + 3];
    size_t length;
} hdlc_listener;

void hdlc_listen(hdlc_listener *listener);

/* Takes an octet. Answers whether it ended a good frame, which then stands in `frame`, without its check. */
bool hdlc_hear(hdlc_listener *listener, uint8_t octet);

#ifdef __cplusplus
}
#endif

#endif
