/* counting.c: what a line counts, counted again. See counting.h. */
#include "counting.h"

#include <stdio.h>
#include <string.h>

/* The kind of a frame, as LAPD_HEARD_I and so on number them. */
static unsigned kind_of(unsigned control) {
    static const uint8_t unnumbered[] = {0x6F, 0x43, 0x03, 0x63, 0x0F, 0x87, 0xAF};
    if (control % 2 == 0)
        return LAPD_HEARD_I;
    if (control % 4 == 1)
        return control <= 0x09 ? LAPD_HEARD_RR + control / 4 : LAPD_HEARD_UNDEFINED;
    for (unsigned i = 0; i < sizeof unnumbered; i++)
        if ((control & ~0x10u) == unnumbered[i])
            return LAPD_HEARD_SABME + i;
    return LAPD_HEARD_UNDEFINED;
}

/* Commands have C/R 0 from a terminal, and 1 from the network. */
void count_head(counting *to, bool is_begun, const uint8_t octets[4], size_t length) {
    unsigned kind = kind_of(octets[2]);
    bool from_network = is_begun == (to->side == LAPD_NETWORK);
    bool is_command = (octets[0] & 2) == (from_network ? 2 : 0), asks = kind <= LAPD_HEARD_REJ;
    to->values[(is_begun ? LAPD_BEGUN_I : LAPD_HEARD_I) + kind]++;
    to->values[is_begun ? LAPD_BEGUN_OCTETS : LAPD_HEARD_OCTETS] += length;
    if (is_command && asks && octets[3] % 2 == 1)
        to->values[is_begun ? LAPD_BEGUN_POLLS : LAPD_HEARD_POLLS]++;
}

void count_message(counting *to, bool is_begun, const uint8_t *octets, size_t length) {
    bool is_of_entity = length > 6 && octets[0] / 4 == 63 && octets[1] == 0xFF && (octets[2] & ~0x10u) == 0x03 && octets[3] == 0x0F;
    if (is_of_entity && octets[6] >= 1 && octets[6] <= 7)
        to->values[(is_begun ? LAPD_BEGUN_REQUEST : LAPD_HEARD_REQUEST) + octets[6] - 1]++;
}

static void count_whole(counting *to, bool is_begun, const uint8_t *octets, size_t length) {
    uint8_t first[4] = {0};
    memcpy(first, octets, length < 4 ? length : 4);
    count_head(to, is_begun, first, length);
    count_message(to, is_begun, octets, length);
}

void count_heard(counting *to, const uint8_t *octets, size_t length) {
    bool is_short = length < 3 || (length == 3 && octets[2] % 4 != 3);
    if (is_short)
        return;
    if (length > to->n201 + 4u)
        to->values[LAPD_HEARD_OVERLONG]++;
    else
        count_whole(to, false, octets, length);
}

void count_given(counting *to, const uint8_t *octets, size_t length) {
    count_whole(to, true, octets, length);
}

void count_told(counting *to, const lapd_report *report) {
    static const uint8_t places[] = {0, LAPD_TOLD_ESTABLISH_INDICATION, LAPD_TOLD_ESTABLISH_CONFIRM,
        LAPD_TOLD_RELEASE_INDICATION, LAPD_TOLD_RELEASE_CONFIRM, LAPD_TOLD_DATA, LAPD_TOLD_UNIT, 0, LAPD_TOLD_ASSIGNED,
        LAPD_TOLD_REMOVED, LAPD_TOLD_DOUBLED, LAPD_TOLD_XID, LAPD_TOLD_DENIED, LAPD_TOLD_UNASSIGNED, LAPD_TOLD_REMOVE_ALL};
    static const char letters[] = "ABCDEFGHIJKLNO";
    for (unsigned i = 0; i < report->note_count; i++) {
        const lapd_note *note = &report->notes[i];
        if (note->note == LAPD_ERROR_INDICATION)
            to->values[LAPD_ERRORS_A + (strchr(letters, note->error) - letters)]++;
        else
            to->values[places[note->note]]++;
    }
    if (report->cause != 0)
        to->values[LAPD_DROPPED_ABORT + report->cause - LAPD_ABORT]++;
    to->values[LAPD_LOST] += report->lost;
}

bool counts_the_same(const counting *of, lapd_card *card, uint32_t line, const char *name) {
    struct lapd_counters counters;
    bool same = lapd_counters(card, line, &counters) == LAPD_OK;
    for (unsigned i = 0; same && i < LAPD_COUNTERS; i++)
        if (counters.values[i] != of->values[i]) {
            fprintf(stderr, "%s: line %u, %s: %llu, where %llu were\n", name, (unsigned)line, lapd_counter_text(i),
                    (unsigned long long)counters.values[i], (unsigned long long)of->values[i]);
            same = false;
        }
    return same;
}
