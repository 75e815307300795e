/*
 * turn.c: makes of a script one in which each octet that comes on a line is followed by a pull there: its lines `rx` and
 * `in` become pairs of `rx LINE OCTET` and `pull LINE 1`, and the others stay. What lapdsim writes of it is what
 * lapd_exchange has to do. For tests alone.
 *
 *     turn < SCRIPT
 */
#include <stdio.h>

#include "hdlc.h"
#include "lapd.h"
#include "words.h"

/* The terminals of the lines that the card has. */
static hdlc_sender senders[LAPD_MOST_LINES];
static uint32_t lines;

/* As many lines as a card's line says, if it can be one. */
static void begin(uint32_t count) {
    if (lines > 0 || count > LAPD_MOST_LINES)
        return;
    lines = count;
    for (uint32_t line = 0; line < lines; line++)
        hdlc_begin(&senders[line]);
}

static void put_turn(uint32_t line, uint8_t octet) {
    printf("rx %u %02X\npull %u 1\n", line, octet, line);
}

/* The terminal's frame, up to and with the last bit of its closing flag. */
static void put_frame(uint32_t line, const command *c) {
    hdlc_sender *sender = &senders[line];
    while (hdlc_busy(sender))
        put_turn(line, hdlc_octet(sender));
    hdlc_load(sender, c->octets, c->length);
    for (size_t left = hdlc_left(sender), given = 0; given < left; given += 8)
        put_turn(line, hdlc_octet(sender));
}

/* Writes a line's turns. Answers false where it stays as it is: where it is another, or a faulty one. */
static bool turned(const command *c) {
    uint32_t line = c->numbers[0];
    bool is_frame = c->verb == IN && 3 <= c->length && c->length <= HDLC_MOST_OCTETS;
    if (line >= lines || !(is_frame || (c->verb == RX && c->length > 0)))
        return false;
    if (is_frame)
        put_frame(line, c);
    else
        for (size_t i = 0; i < c->length; i++)
            put_turn(line, c->octets[i]);
    return true;
}

int main(void) {
    static char line[MOST_LINE];
    static command c;
    for (size_t length; next_line(line, &length);) {
        bool is_read = length > 0 && length <= MOST_LINE && read_command(line, length, &c) == NO_FAULT;
        if (is_read && c.verb == CARD && !c.for_frames)
            begin(c.config.lines);
        if (is_read && turned(&c))
            continue;
        for (size_t i = 0; i < length; i++)
            putchar(i < MOST_LINE ? line[i] : ' ');
        putchar('\n');
    }
    return 0;
}
