// deframer.cc: see deframer.h.
#include "deframer.h"

#include <lapd.h>

#include "captured.h"

namespace monitor {

struct Deframer::Card {
    lapd_card card;
};

Deframer::Deframer() : card(std::make_unique<Card>()) {
    const lapd_config config = LAPD_PRIMARY_RATE;
    if (lapd_card_start(&card->card, &config) != LAPD_OK)
        throw Fault("no card for the deframer: there is too little memory");
}

Deframer::~Deframer() { (void)!lapd_card_free(&card->card); }

bool Deframer::octet(uint8_t octet, Octets &frame) {
    lapd_report report;
    lapd_head head;
    frame.resize(LAPD_MOST_FRAME);
    size_t length = 0;
    if (lapd_octet(&card->card, 0, octet, &report) != LAPD_OK
        || lapd_heard_frame(&card->card, 0, frame.data(), frame.size(), &length) != LAPD_OK)
        return false;
    bool is_whole = lapd_heard(&card->card, 0, &head) != LAPD_OK || head.length <= length;
    frame.resize(length);
    if (!is_whole)
        frame.resize(head.length, 0);
    return true;
}

} // namespace monitor
