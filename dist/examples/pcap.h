/* pcap.h: captures that Wireshark and tshark read: link type 177, LAPD with Linux's pseudo-header. */
#ifndef PCAP_H
#define PCAP_H

#include <stdbool.h>
#include <stddef.h>
#include <stdint.h>
#include <stdio.h>

#include "lapd.h"

/* The head of a capture; frames follow. Whether it was written is what ferror says, and then fclose. */
void pcap_begin(FILE *to);

/* A frame without its check that came from a line, or went there, at a card of this side (LAPD_NETWORK or LAPD_USER).
 * Of its `length` octets the first `captured` are written: all, or those that lapd_heard tells. */
void pcap_frame(FILE *to, uint64_t milliseconds, bool is_sent, uint16_t side, const uint8_t *octets, size_t captured,
                size_t length);

/* Before pcap_heads of a line is called first: sets *heard to the number of frames that were heard there until now.
 * False: there is no such card of octets, or no such line. */
bool pcap_begin_heads(lapd_card *card, uint32_t line, uint64_t *heard);

/* Of a line of a card of octets: the frame that was heard last, where one was heard since the call before, and the one
 * that a pull began, where its report says so. To be called with each report, and after each octet that comes: then
 * frames are whole, except of one that is too long its first four octets. With up to four octets between two calls, a
 * frame that came has its first four: no two end in so few. False: more than one frame was heard meanwhile, and only
 * the last of them is written; or there is no such card or line. */
bool pcap_heads(FILE *to, uint64_t milliseconds, uint16_t side, lapd_card *card, uint32_t line,
                const lapd_report *report, uint64_t *heard);

#endif
