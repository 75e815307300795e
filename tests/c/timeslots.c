/*
 * timeslots.c: a loop over the octets of a timeslot, whose first bit is bit 8, of 64 kbit/s, as docs/EMBEDDING.md says; and one
 * of 56 kbit/s, where the last bit of each octet is not the channel's. A terminal establishes its link and sends data over
 * each; what the card sends is heard. The turning is tested beside a loop over bits. For tests alone.
 */
#include <stdio.h>
#include <string.h>

#include "hdlc.h"
#include "lapd.h"

enum { LENGTH = 40 };

static const lapd_config config = {.lines = 1, .terminals = 8, .k = 7, .k16 = 7, .queue = 8, .unit_queue = 4, .control = 4, .slots = 64,
                                   .n201 = 260, .n200 = 3};
static lapd_card card = LAPD_CARD_NONE;
static const lapd_lengths lengths = {.t200 = 1000, .t203 = 10000, .t201 = 1000, .t202 = 2000};
static lapd_report report;
static const uint32_t line = 0;
static char notes[400];

static void layer_3(const lapd_report *of) {
    for (int i = 0; i < of->note_count; i++)
        snprintf(notes + strlen(notes), sizeof notes - strlen(notes), "%u %s %u %u\n", of->line, lapd_note_text(&of->notes[i]),
                 of->notes[i].tei, of->length);
}

static uint32_t told(uint32_t status) {
    if (status == LAPD_OK)
        layer_3(&report);
    return status;
}

/* One block of the timeslot: what came is replaced by what goes. */
static bool serve(uint8_t *timeslot, size_t length) {
    uint8_t in[LENGTH], out[LENGTH];
    uint32_t status = LAPD_OK;
    for (size_t i = 0; i < length; i++)
        in[i] = lapd_turned(timeslot[i]);
    for (size_t steps = 0; status == LAPD_OK && steps < 2 * length;)
        status = told(lapd_exchange(&card, line, in, length, out, length, &steps, &report));
    for (size_t i = 0; status == LAPD_OK && i < length; i++)
        timeslot[i] = lapd_turned(out[i]);
    return status == LAPD_OK;
}

/* The same of eight octets of 56 kbit/s. */
static bool serve_56(uint8_t *timeslot) {
    uint8_t in[7], out[7];
    uint32_t status = LAPD_OK;
    uint64_t bits = 0;
    for (size_t i = 0; i < 8; i++)
        bits |= (uint64_t)(lapd_turned(timeslot[i]) & 0x7F) << 7 * i;
    for (size_t i = 0; i < 7; i++)
        in[i] = (uint8_t)(bits >> 8 * i);
    for (size_t steps = 0; status == LAPD_OK && steps < 14;)
        status = told(lapd_exchange(&card, line, in, 7, out, 7, &steps, &report));
    bits = 0;
    for (size_t i = 0; status == LAPD_OK && i < 7; i++)
        bits |= (uint64_t)out[i] << 8 * i;
    for (size_t i = 0; status == LAPD_OK && i < 8; i++)
        timeslot[i] = lapd_turned((uint8_t)(bits >> 7 * i | 0x80));
    return status == LAPD_OK;
}

/* ---- A line: so many bits of each octet are the channel's, the first as bit 8 ---------------------------------------- */

static hdlc_sender sender;
static hdlc_listener listener;
static uint8_t octet, heard;
static int left, have;
static char frames[400];

/* The next bit of the terminal, which sends flags where no frame is left. */
static unsigned sent(void) {
    if (left == 0) {
        octet = hdlc_octet(&sender);
        left = 8;
    }
    return octet >> (8 - left--) & 1;
}

static void hears(unsigned bit) {
    heard = (uint8_t)(heard >> 1 | bit << 7);
    if (++have % 8 != 0 || !hdlc_hear(&listener, heard))
        return;
    for (size_t i = 0; i < listener.length; i++)
        snprintf(frames + strlen(frames), sizeof frames - strlen(frames), "%02X", listener.frame[i]);
    strncat(frames, "\n", sizeof frames - strlen(frames) - 1);
}

static bool passes(uint8_t *timeslot, size_t length, int bits) {
    for (size_t i = 0; i < length; i++) {
        timeslot[i] = bits == 7 && i % 3 == 0; /* the bit that is not the channel's may have any value */
        for (int at = 0; at < bits; at++)
            timeslot[i] = (uint8_t)(timeslot[i] | sent() << (7 - at));
    }
    bool is_good = bits == 8 ? serve(timeslot, length) : serve_56(timeslot);
    for (size_t i = 0; i < length; i++) {
        for (int at = 0; at < bits; at++)
            hears(timeslot[i] >> (7 - at) & 1);
        is_good = is_good && (bits == 8 || (timeslot[i] & 1) == 1);
    }
    return is_good;
}

static const uint8_t sabme[] = {0x00, 0x81, 0x7F}, data[] = {0x00, 0x81, 0x00, 0x00, 0xAB, 0xCD, 0xEF};
static const char all_notes[] = "0 establish-indication 64 0\n0 data 64 3\n", all_frames[] = "008173\n00810102\n";

/* A terminal over so many bits of each octet, in blocks of so many. */
static bool talks(int bits, size_t length) {
    uint8_t timeslot[LENGTH];
    notes[0] = frames[0] = '\0';
    left = have = 0;
    hdlc_begin(&sender);
    hdlc_listen(&listener);
    bool is_good = lapd_card_start_timed(&card, &config, &lengths) == LAPD_OK && lapd_assign(&card, line, 64, &report) == LAPD_OK;
    hdlc_load(&sender, sabme, sizeof sabme);
    hdlc_load(&sender, data, sizeof data);
    for (int i = 0; i < 60; i++)
        is_good = passes(timeslot, length, bits) && is_good;
    is_good = lapd_card_free(&card) == LAPD_OK && is_good;
    if (strcmp(notes, all_notes) != 0 || strcmp(frames, all_frames) != 0)
        fprintf(stderr, "%d bits, blocks of %u:\n%s%s", bits, (unsigned)length, notes, frames);
    return is_good && strcmp(notes, all_notes) == 0 && strcmp(frames, all_frames) == 0;
}

static bool turns(void) {
    bool is_good = true;
    for (unsigned it = 0; it < 256; it++) {
        unsigned wanted = 0;
        for (int at = 0; at < 8; at++)
            wanted |= (it >> at & 1) << (7 - at);
        is_good = is_good && lapd_turned((uint8_t)it) == wanted;
    }
    return is_good;
}

int main(void) {
    bool is_turned = turns(), is_64 = talks(8, LENGTH) && talks(8, 1), is_56 = talks(7, 8);
    if (!is_turned || !is_64 || !is_56)
        fprintf(stderr, "timeslots: turned %d, 64 kbit/s %d, 56 kbit/s %d\n", is_turned, is_64, is_56);
    return !is_turned || !is_64 || !is_56;
}
