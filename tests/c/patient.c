/*
 * patient.c: a program of examples/c that is compiled with `-Dlapd_card_start_frames_timed=start_patiently`, and this file, has
 * timers of an hour, and T200 of T200_MS. So none expires that is not to, however slow the machine is. For tests alone.
 */
#undef lapd_card_start_frames_timed
#include "lapd.h"

enum { AN_HOUR = 3600000 };

uint32_t start_patiently(lapd_card *card, const lapd_config *config, const lapd_lengths *lengths);

uint32_t start_patiently(lapd_card *card, const lapd_config *config, const lapd_lengths *lengths) {
    static const lapd_lengths patient = {T200_MS, AN_HOUR, AN_HOUR, AN_HOUR, {0}};
    (void)lengths;
    return lapd_card_start_frames_timed(card, config, &patient);
}
