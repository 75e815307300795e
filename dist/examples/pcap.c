/* pcap.c: captures that Wireshark and tshark read. See pcap.h. Every number has its high octet first. */
#include "pcap.h"

enum { LINK_TYPE = 177, LONGEST = 65535 };
enum { PSEUDO_HEADER = 16, FROM_OTHER = 0, TO_OTHER = 4, HARDWARE = 8445, PROTOCOL = 0x0030 };

static void put_number(FILE *to, uint64_t number, int octets) {
    while (octets-- > 0)
        fputc((int)(number >> 8 * octets & 0xFF), to);
}

void pcap_begin(FILE *to) {
    put_number(to, 0xA1B2C3D4, 4);
    put_number(to, 2, 2); /* version 2.4 */
    put_number(to, 4, 2);
    put_number(to, 0, 8); /* the time is that of the card's start */
    put_number(to, LONGEST, 4);
    put_number(to, LINK_TYPE, 4);
}

void pcap_frame(FILE *to, uint64_t milliseconds, bool is_sent, uint16_t side, const uint8_t *octets, size_t captured,
                size_t length) {
    put_number(to, milliseconds / 1000, 4);
    put_number(to, milliseconds % 1000 * 1000, 4);
    put_number(to, PSEUDO_HEADER + captured, 4);
    put_number(to, PSEUDO_HEADER + length, 4);
    put_number(to, is_sent ? TO_OTHER : FROM_OTHER, 2);
    put_number(to, HARDWARE, 2);
    put_number(to, 1, 2); /* an address of one octet: whose side the capture is */
    put_number(to, side == LAPD_NETWORK, 1);
    put_number(to, 0, 7);
    put_number(to, PROTOCOL, 2);
    fwrite(octets, 1, captured, to);
}

/* A frame of a line: whole, if the card still has it, or else how it begins. */
static void put_known(FILE *to, uint64_t milliseconds, bool is_sent, uint16_t side, lapd_card *card, uint32_t line,
                      const lapd_head *head) {
    uint8_t octets[LAPD_MOST_FRAME];
    size_t captured = head->length < sizeof head->octets ? head->length : sizeof head->octets;
    uint32_t status = is_sent ? lapd_begun_frame(card, line, octets, sizeof octets, &captured)
                              : lapd_heard_frame(card, line, octets, sizeof octets, &captured);
    pcap_frame(to, milliseconds, is_sent, side, status == LAPD_OK ? octets : head->octets, captured, head->length);
}

bool pcap_begin_heads(lapd_card *card, uint32_t line, uint64_t *heard) {
    struct lapd_counters counters;
    lapd_head head;
    if (lapd_heard(card, line, &head) != LAPD_OK || lapd_counters(card, line, &counters) != LAPD_OK)
        return false;
    *heard = counters.values[LAPD_HEARD_OVERLONG];
    for (unsigned kind = LAPD_HEARD_I; kind <= LAPD_HEARD_UNDEFINED; kind++)
        *heard += counters.values[kind];
    return true;
}

bool pcap_heads(FILE *to, uint64_t milliseconds, uint16_t side, lapd_card *card, uint32_t line,
                const lapd_report *report, uint64_t *heard) {
    lapd_head head;
    uint64_t before = *heard;
    if (!pcap_begin_heads(card, line, heard))
        return false;
    if (*heard != before && lapd_heard(card, line, &head) == LAPD_OK)
        put_known(to, milliseconds, false, side, card, line, &head);
    if (report->begun && lapd_begun(card, line, &head) == LAPD_OK)
        put_known(to, milliseconds, true, side, card, line, &head);
    return *heard - before <= 1;
}
