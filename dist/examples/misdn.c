/*
 * misdn.c: a card on any ISDN device that Linux drives by mISDN, its ISDN stack. The kernel has layer 1 and the hardware; the
 * D-channel ends here, over a socket of layer 1, which takes and gives frames without a check. Layer 1 is activated, and asked
 * for again each second while it isn't there. One frame goes at a time: the next one as the kernel confirms the last.
 * dchannel.h says what the card and its layer 3 do. No other program may have the device at layer 2.
 *
 *     cc -O2 -I .. -o misdn misdn.c dchannel.c linecard.c trace.c pcap.c ../lapd.c
 *     misdn [--trace] DEVICE nt|te|nt-e1|te-e1 [RECORD [CAPTURE]]
 *
 * Standard error tells what layer 3 is told, and whether layer 1 is there. With --trace it has a log of each frame, note, expiry
 * and state as well (trace.c). With RECORD, all that happens is written there as a script of lapdsim.5: `lapdsim run <
 * RECORD` then shows the same. With CAPTURE, the frames of both ways are written there for Wireshark (pcap.c). It ends by a
 * signal (SIGINT, SIGTERM), or if the device goes.
 *
 * What was tried: all four sides over the kernel's l1oip, a device whose layer 1 is packets of UDP, against the kernel's own
 * layer 2 (tests/kernel). It was never tried on hardware.
 */
#define _POSIX_C_SOURCE 200809L

#include "misdn.h"

#include <errno.h>
#include <stdlib.h>
#include <string.h>
#include <unistd.h>

#include "dchannel.h"

enum { LONGEST = 2048, AGAIN_MS = 1000 };

static const char help[] =
    "\n"
    "A card on an ISDN device of Linux (mISDN), of which it has the D-channel, as the network (nt) or a terminal (te) of a basic\n"
    "access, or as either side of a primary rate access. It answers calls; messages of other protocols go back. Standard error\n"
    "tells what layer 3 is told.\n"
    "\n"
    "  --trace  a log of each frame, note, expiry and state on standard error\n"
    "  DEVICE   the number of the device in mISDN: 0 for the first\n"
    "  RECORD   a file for all that happens, as a script: lapdsim run < RECORD shows the same\n"
    "  CAPTURE  a file for the frames of both ways, for Wireshark\n";

typedef struct {
    misdn_head head;
    uint8_t octets[LONGEST];
} message;

static dchannel own = {.card = {.program = "misdn", .card = LAPD_CARD_NONE}};
static int layer1 = -1;
static bool is_full;   /* a frame is with layer 1, which has not confirmed it */
static uint64_t again; /* when layer 1 is asked for again, while it isn't there */

static bool fails(const char *what) {
    fprintf(stderr, "misdn: device %s: %s: %s\n", own.device, what, strerror(errno));
    return false;
}

/* The socket of layer 1 of the device. */
static bool opens(void) {
    char *end;
    unsigned long device = strtoul(own.device, &end, 10);
    if (strchr("0123456789", own.device[0]) == NULL || own.device[0] == 0 || *end != 0 || device > 255) {
        fprintf(stderr, "misdn: %s is no number of a device\n", own.device);
        return false;
    }
    int basic = own.is_user ? MISDN_TE_S0 : MISDN_NT_S0, primary = own.is_user ? MISDN_TE_E1 : MISDN_NT_E1;
    layer1 = socket(MISDN_FAMILY, SOCK_DGRAM, own.is_primary ? primary : basic);
    if (layer1 < 0)
        return fails("mISDN gives no socket of layer 1");
    misdn_address address = {.family = MISDN_FAMILY, .device = (uint8_t)device};
    return bind(layer1, (struct sockaddr *)&address, sizeof address) == 0 || fails("mISDN has no such layer 1");
}

/* A message to layer 1. One that it doesn't take is as lost on the line. */
static bool is_sent(uint32_t primitive, const uint8_t *octets, size_t length) {
    message out = {.head = {.primitive = primitive}};
    if (length > 0)
        memcpy(out.octets, octets, length);
    return send(layer1, &out, sizeof out.head + length, 0) >= 0 || fails("layer 1 takes no message");
}

static void activate(void) {
    again = own.card.now + AGAIN_MS;
    (void)is_sent(MISDN_ACTIVATE, NULL, 0);
}

/* The next frame goes, if layer 1 has room for it. */
static bool give(void) {
    uint8_t frame[LAPD_MOST_FRAME];
    for (size_t length = 1; length > 0 && !is_full;) {
        if (!dchannel_next(&own, frame, &length))
            return false;
        is_full = length > 0 && is_sent(MISDN_SEND, frame, length);
    }
    return true;
}

/* A message of layer 1. */
static bool take(const message *in, size_t length) {
    switch (in->head.primitive) {
    case MISDN_RECEIVED: return dchannel_frame(&own, in->octets, length);
    case MISDN_SENT: is_full = false; return true;
    case MISDN_ACTIVE: is_full = is_full && own.is_up; return dchannel_up(&own);
    case MISDN_INACTIVE: again = own.card.now + AGAIN_MS; return dchannel_down(&own);
    default: return true;
    }
}

/* How long a wait may be: while layer 1 isn't there, until it is asked for again. */
static int most(void) {
    if (own.is_up)
        return -1;
    return again > own.card.now ? (int)(again - own.card.now) : 0;
}

/* Serves the line until a signal ends it. */
static bool serve(void) {
    message in;
    struct pollfd line = {.fd = layer1, .events = POLLIN, .revents = 0};
    for (activate(); give();) {
        if (!linecard_wait(&own.card, &line, most()))
            return false;
        if (dchannel_is_over())
            return true;
        if (!own.is_up && own.card.now >= again)
            activate();
        if (line.revents == 0)
            continue;
        ssize_t length = recv(layer1, &in, sizeof in, 0);
        if (length < (ssize_t)sizeof in.head)
            return fails("the device is gone");
        if (!take(&in, (size_t)length - sizeof in.head))
            return false;
    }
    return false;
}

int main(int words, char **word) {
    int status;
    if (!dchannel_reads(&own, words, word, help, &status))
        return status;
    bool is_good = opens() && dchannel_begin(&own) && serve();
    return !(dchannel_end(&own) && is_good);
}
