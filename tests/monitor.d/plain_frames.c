/* plain_frames.c: see plain_frames.h. */
#include "plain_frames.h"

#include <string.h>

static void put(plain *it, bool is_command, const uint8_t *rest, size_t length) {
    plain_frame *frame = &it->control[(it->first + it->waiting) % PLAIN_CONTROL];
    if (it->waiting == PLAIN_CONTROL)
        return;
    it->waiting++;
    frame->octets[0] = (uint8_t)(is_command == it->is_network ? 2 : 0);
    frame->octets[1] = 1;
    memcpy(frame->octets + 2, rest, length);
    frame->length = 2 + length;
}

void unnumbered(plain *it, bool is_command, uint8_t control, bool pf) {
    uint8_t rest[6] = {(uint8_t)(control | (pf ? 0x10 : 0))};
    put(it, is_command, rest, control == FRMR ? 6 : 1);
}

void supervisory(plain *it, bool is_command, uint8_t control, bool pf) {
    uint32_t nr = it->r - (it->fault == NR_NOT_ADVANCED && control == RR && !pf && it->r > 0);
    uint8_t rest[2] = {control, (uint8_t)((nr & 127) << 1 | pf)};
    put(it, is_command, rest, 2);
    it->pending = false;
}

void answer(plain *it) {
    if (it->fault != NO_ANSWER)
        supervisory(it, false, it->own_busy && it->fault != ANSWER_RR ? RNR : RR, it->fault != WRONG_F);
}

void enquiry(plain *it) {
    supervisory(it, it->fault != ENQUIRY_RESPONSE, it->own_busy && it->fault != ENQUIRY_RR ? RNR : RR, true);
}

void ua(plain *it, bool f) {
    unnumbered(it, false, UA, it->fault != UA_F0 && f);
    if (it->fault == UA_TWICE)
        unnumbered(it, false, UA, f);
}
