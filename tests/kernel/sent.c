/* sent.c: the judge of the frames that our cards send. See sent.h. */
#include "sent.h"

#include "faults.h"
#include "plan.h"

enum { N200 = 3, SABME = 0x6F, DISC = 0x43, UA = 0x63, DM = 0x0F, UI = 0x03, P = 0x10 };
enum { MANAGEMENT_SAPI = 63, PACKET_SAPI = 16, GROUP = 127, MANAGEMENT_ENTITY = 15, MANAGEMENT_OCTETS = 8 };

static bool is_i(const uint8_t *frame) {
    return (frame[2] & 1) == 0;
}

static bool is_s(const uint8_t *frame) {
    return (frame[2] & 3) == 1;
}

static uint8_t u_of(const uint8_t *frame) {
    return frame[2] & (uint8_t)~P;
}

bool sent_is_of_link(const uint8_t *frame, size_t length, int *service, int *tei) {
    *service = frame[0] >> 2 == PACKET_SAPI;
    *tei = frame[1] >> 1;
    return length > 2 && frame[0] >> 2 != MANAGEMENT_SAPI && *tei < GROUP;
}

void sent_link_is_new(link_view *link) {
    link->vr = link->va = link->commands = link->enquiries = 0;
}

void sent_link_is_asked(link_view *link) {
    link->commands = 0;
}

void sent_comes(link_view *link, uint8_t state, const uint8_t *frame, size_t length) {
    if (length > 3 && (frame[2] & 3) != 3 && (state == 7 || state == 8)) {
        link->va = frame[3] >> 1;
        if (is_s(frame) && frame[3] & 1)
            link->enquiries = 0;
    }
    if (state == 5 && frame[2] == (UA | P))
        sent_link_is_new(link);
    if (frame[2] == (UA | P) || u_of(frame) == DM)
        link->commands = 0;
}

void sent_came(link_view *link, uint8_t state, const uint8_t *frame, size_t length) {
    (void)length;
    if (u_of(frame) == SABME && state == 7)
        sent_link_is_new(link);
    if (state == 4 || state == 7)
        link->commands = 0;
}

static void need(bool is_so, const char *what) {
    if (!is_so)
        fault(FAULT_OUR_FRAME, "%s", what);
}

static void i_goes(link_view *link, const uint8_t *frame, size_t length, bool is_command) {
    need(length >= 4 && is_command, "an I-frame that is none");
    need(frame[3] >> 1 == link->vr, "N(R) of an I-frame is not V(R)");
    need((((frame[2] >> 1) - link->va) & 127) < plan.k, "an I-frame beyond the window");
}

static void s_goes(link_view *link, const uint8_t *frame, size_t length, bool is_command) {
    need(length == 4 && (frame[2] & 0xF0) == 0, "a supervisory frame that is none");
    need(frame[3] >> 1 == link->vr, "N(R) of a supervisory frame is not V(R)");
    need(!is_command || frame[3] & 1, "a supervisory command without P");
    need(!is_command || ++link->enquiries <= N200 + 1, "more enquiries than N200 and one");
}

static void u_goes(link_view *link, const uint8_t *frame, size_t length, bool is_command) {
    switch (u_of(frame)) {
    case SABME:
    case DISC:
        need(length == 3 && is_command && frame[2] & P, "SABME or DISC that is none");
        need(++link->commands <= N200 + 1, "more SABME or DISC than N200 and one");
        break;
    case UA:
    case DM: need(length == 3 && !is_command, "UA or DM that is none"); break;
    case UI: need(is_command && !(frame[2] & P), "UI that is none"); break;
    default: need(false, "a control field that no card sends");
    }
}

void sent_goes(link_view *link, const uint8_t *frame, size_t length) {
    bool is_command = (frame[0] >> 1 & 1) == ours_is_network();
    if (length < 3 || frame[0] & 1 || !(frame[1] & 1)) {
        need(false, "an address that is none");
    } else if (frame[0] >> 2 == MANAGEMENT_SAPI) {
        need(length == MANAGEMENT_OCTETS && is_command && frame[2] == UI && frame[3] == MANAGEMENT_ENTITY && frame[1] >> 1 == GROUP,
             "a message of TEI management that is none");
    } else if (link == NULL) {
        need(u_of(frame) == UI && is_command && !(frame[2] & P), "a frame to the group that is not UI");
    } else if (is_i(frame)) {
        i_goes(link, frame, length, is_command);
    } else if (is_s(frame)) {
        s_goes(link, frame, length, is_command);
    } else {
        u_goes(link, frame, length, is_command);
    }
}
