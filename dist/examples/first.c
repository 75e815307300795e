/*
 * first.c: the first example of README.md in C. A terminal with TEI 64 sends SABME; the card answers with UA.
 * It prints what `lapdsim run` prints for the same script, but for the line of the frame: the octets that go have it.
 */
#include <stdio.h>
#include <stdlib.h>

#include "lapd.h"

static void want_ok(uint32_t status) {
    if (status != LAPD_OK) {
        fprintf(stderr, "%s\n", lapd_status_text(status));
        exit(1);
    }
}

static void tell(uint32_t line, const lapd_report *report) {
    for (int i = 0; i < report->note_count; i++)
        printf("%u %s %u\n", line, lapd_note_text(&report->notes[i]), report->notes[i].tei);
}

int main(void) {
    lapd_config config = LAPD_BASIC_ACCESS;
    config.slots = 64; /* as the script has it: fewer than all queues have places */
    static const uint8_t sabme[] = {0x7E, 0x00, 0x81, 0xEF, 0x50, 0xB1, 0xFD, 0xFC};
    static lapd_report report;
    lapd_card card = LAPD_CARD_NONE;
    want_ok(lapd_card_start(&card, &config));
    want_ok(lapd_assign(&card, 0, 64, &report));
    for (size_t i = 0; i < sizeof sabme; i++) {
        want_ok(lapd_octet(&card, 0, sabme[i], &report));
        tell(0, &report);
    }
    printf("0 tx ");
    for (int i = 0; i < 7; i++) {
        uint8_t octet;
        want_ok(lapd_pull(&card, 0, &octet, &report));
        printf("%02X", octet);
    }
    uint32_t stored, limit;
    want_ok(lapd_stored(&card, &stored));
    want_ok(lapd_limit(&card, &limit));
    printf("\nstored %u limit %u\n", stored, limit);
    want_ok(lapd_card_free(&card));
    return 0;
}
