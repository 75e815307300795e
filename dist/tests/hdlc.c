/* HDLC in plain C, bit by bit: see hdlc.h. */
#include "hdlc.h"

#include <string.h>

/* ---- The frame check: division by x^16 + x^12 + x^5 + 1, the register preset to ones ------------------------------ */

static unsigned divided(unsigned left, unsigned bit) {
    unsigned high = (left >> 15) ^ bit;
    return ((left << 1) & 0xFFFF) ^ (high ? 0x1021 : 0);
}

static unsigned divided_octets(const uint8_t *octets, size_t length) {
    unsigned left = 0xFFFF;
    for (size_t i = 0; i < length * 8; i++)
        left = divided(left, octets[i / 8] >> (i % 8) & 1);
    return left;
}

/* ---- Sending ------------------------------------------------------------------------------------------------------ */

static void push(hdlc_sender *sender, unsigned bit) {
    sender->bits[sender->to++] = (unsigned char)bit;
}

static void push_flag(hdlc_sender *sender) {
    for (int i = 0; i < 8; i++)
        push(sender, 0x7E >> i & 1);
}

/* A bit of a frame, and a 0 after the fifth 1 in a row. */
static void push_stuffed(hdlc_sender *sender, unsigned bit, unsigned *ones) {
    push(sender, bit);
    *ones = bit ? *ones + 1 : 0;
    if (*ones == 5) {
        push(sender, 0);
        *ones = 0;
    }
}

void hdlc_begin(hdlc_sender *sender) {
    sender->from = sender->to = 0;
    push_flag(sender);
}

size_t hdlc_left(const hdlc_sender *sender) {
    return sender->to - sender->from;
}

bool hdlc_busy(const hdlc_sender *sender) {
    return hdlc_left(sender) >= 8;
}

void hdlc_load(hdlc_sender *sender, const uint8_t *frame, size_t length) {
    memmove(sender->bits, sender->bits + sender->from, hdlc_left(sender));
    sender->to = hdlc_left(sender);
    sender->from = 0;
    unsigned ones = 0;
    for (size_t i = 0; i < length * 8; i++)
        push_stuffed(sender, frame[i / 8] >> (i % 8) & 1, &ones);
    unsigned check = ~divided_octets(frame, length);
    for (int i = 15; i >= 0; i--) /* the highest power goes first */
        push_stuffed(sender, check >> i & 1, &ones);
    push_flag(sender);
}

uint8_t hdlc_octet(hdlc_sender *sender) {
    if (!hdlc_busy(sender)) {
        memmove(sender->bits, sender->bits + sender->from, hdlc_left(sender));
        sender->to = hdlc_left(sender);
        sender->from = 0;
        push_flag(sender);
    }
    unsigned octet = 0;
    for (int i = 0; i < 8; i++)
        octet |= (unsigned)sender->bits[sender->from++] << i;
    return (uint8_t)octet;
}

/* ---- Listening ---------------------------------------------------------------------------------------------------- */

void hdlc_listen(hdlc_listener *listener) {
    memset(listener, 0, sizeof *listener);
}

/* Takes the stuffed 0s out of the gap's bits; whether what is left is whole octets, which then stand in `frame`. */
static bool unstuffed(hdlc_listener *listener, size_t count) {
    unsigned ones = 0;
    size_t bits = 0;
    memset(listener->frame, 0, sizeof listener->frame);
    for (size_t i = 0; i < count; i++) {
        unsigned bit = listener->gap[i];
        if (ones == 5) {
            if (bit)
                return false;
            ones = 0;
            continue;
        }
        if (bits == sizeof listener->frame * 8)
            return false;
        listener->frame[bits / 8] |= (uint8_t)(bit << (bits % 8));
        bits++;
        ones = bit ? ones + 1 : 0;
    }
    listener->length = bits / 8;
    return ones != 5 && bits % 8 == 0;
}

/* A flag ended: its first seven bits stand in the gap too. */
static bool closes(hdlc_listener *listener) {
    bool good = false;
    if (listener->open && listener->count > 7 && unstuffed(listener, listener->count - 7)) {
        size_t length = listener->length;
        bool is_long = length > 5 || (length == 5 && (listener->frame[2] & 3) == 3);
        good = is_long && divided_octets(listener->frame, length) == 0x1D0F;
        listener->length = length >= 2 ? length - 2 : 0;
    }
    listener->open = true;
    listener->count = 0;
    return good;
}

static bool hear_bit(hdlc_listener *listener, unsigned bit) {
    listener->latest = (listener->latest << 1 | bit) & 0xFF;
    listener->seen += listener->seen < 8;
    if (listener->seen == 8 && listener->latest == 0x7E)
        return closes(listener);
    if (listener->seen >= 7 && (listener->latest & 0x7F) == 0x7F)
        listener->open = false;
    if (listener->count < HDLC_MOST_BITS)
        listener->gap[listener->count++] = (unsigned char)bit;
    else
        listener->open = false; /* longer than any frame of a card */
    return false;
}

bool hdlc_hear(hdlc_listener *listener, uint8_t octet) {
    bool heard = false;
    for (int i = 0; i < 8; i++)
        heard |= hear_bit(listener, octet >> i & 1);
    return heard;
}
