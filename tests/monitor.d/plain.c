/* plain.c: see plain.h. */
#include "plain_frames.h"

#include <string.h>

enum { N201 = 260 };

/* ---- Timers ---- */

static void t200(plain *it) {
    uint64_t length = it->fault == T200_HALF ? it->t200 / 2 : it->fault == T200_90 ? it->t200 * 9 / 10
        : it->fault == T200_LONG ? 5 * it->t200 : it->t200;
    it->t200_due = it->now + length;
    it->t203_due = 0;
}

static void t203(plain *it) {
    it->t203_due = it->now + (it->fault == T203_SHORT ? it->t203 / 2 : it->t203);
    it->t200_due = 0;
}

static void no_timer(plain *it) { it->t200_due = it->t203_due = 0; }

/* ---- Words ---- */

static void clear(plain *it) { it->peer_busy = it->own_busy = it->rejecting = it->pending = false; }

/* What is not sent yet begins the new list. */
static void zero(plain *it) {
    it->accepted -= it->s;
    it->oldest = (it->oldest + it->s) % PLAIN_QUEUE;
    it->a = it->s = 0;
    it->r = it->fault == ZERO_VR ? it->r : 0;
}

/* The contents with this number. */
static plain_frame *contents_at(plain *it, uint32_t number) { return &it->queue[(it->oldest + number) % PLAIN_QUEUE]; }

static void discard(plain *it) { it->a = it->s = it->accepted; }

static void sabme(plain *it) {
    clear(it);
    unnumbered(it, true, SABME, it->fault != SABME_P0);
    it->rc = 0;
    t200(it);
    it->state = 5;
}

static void comes_up(plain *it) {
    zero(it);
    t203(it);
    it->state = 7;
}

static void disconnect(plain *it) {
    it->owed = false;
    unnumbered(it, true, DISC, true);
    it->rc = 0;
    t200(it);
    it->state = 6;
}

static void goes_down(plain *it) {
    it->owed = false;
    discard(it);
    no_timer(it);
    it->state = 4;
}

/* ---- What is heard ---- */

static void hear_sabme(plain *it, bool p) {
    static unsigned count;
    if (it->state == 5) {
        ua(it, p);
    } else if (it->state == 6 || (it->state == 4 && it->fault == SABME_DM && ++count % 3 == 0)) {
        unnumbered(it, false, DM, p);
    } else {
        bool rejecting = it->rejecting && it->fault == REJECT_KEPT;
        ua(it, p);
        clear(it);
        it->rejecting = rejecting;
        it->rc = 0;
        comes_up(it);
    }
}

static void hear_disc(plain *it, bool p) {
    if (it->state == 4 || it->state == 5)
        unnumbered(it, false, it->state == 4 && it->fault == DISC4_UA ? UA : DM, p);
    else if (it->state == 6)
        ua(it, p);
    else {
        it->pending = false;
        if (it->fault != DISC_NO_UA)
            ua(it, p);
        goes_down(it);
    }
}

static void hear_ua_or_dm(plain *it, bool is_ua, bool f) {
    if (it->state == 5 && f && is_ua)
        it->owed ? disconnect(it) : comes_up(it);
    else if ((it->state == 5 || it->state == 6) && f)
        goes_down(it);
    else if (it->state == 4 && !is_ua && !f && it->is_annex_b)
        sabme(it);
    else if (it->state >= 7 && !is_ua && (it->state == 8 || !f) && (f || it->fault != DM_F0))
        sabme(it);
}

static bool is_valid(const plain *it, uint8_t nr, uint32_t *n) {
    *n = it->a + ((nr - it->a) & 127);
    return *n <= it->s;
}

/* N(R) of what is heard. `is_final`: a response with F=1. */
static void hear_nr(plain *it, uint8_t control, bool is_i, bool is_final, uint8_t nr) {
    uint32_t n;
    if (!is_valid(it, nr, &n)) {
        if (it->fault != INVALID_NR)
            sabme(it);
        return;
    }
    bool is_beyond = n > it->a;
    it->a = n;
    if (it->state == 8) {
        if (!is_final)
            return;
        it->s = it->fault == F1_NO_BACK ? it->s : n;
        it->state = 7;
        it->rc = it->fault == RC_KEPT ? it->rc : 0;
        if (control == RNR || it->s != n)
            t200(it);
        else
            t203(it);
    } else if (is_i && it->peer_busy) {
        return;
    } else if (control == RNR && !is_i) {
        t200(it);
    } else if (control == REJ && !is_i) {
        it->s = it->fault == REJ_NO_BACK ? it->s : n;
        t203(it);
    } else if (n == it->s) {
        t203(it);
    } else if (is_beyond) {
        t200(it);
    }
}

static void hear_i(plain *it, uint8_t ns, uint8_t nr, bool p) {
    bool is_busy = it->own_busy && it->fault != BUSY_ACCEPTS;
    if (is_busy) {
        if (p)
            answer(it);
    } else if (ns == (it->r & 127)) {
        it->r++;
        it->rejecting = false;
        if (p && it->fault != NO_ANSWER_I)
            answer(it);
        else
            it->pending = true;
    } else if (it->fault == NO_REJ || (it->rejecting && it->fault != REJ_REPEATED)) {
        if (p)
            answer(it);
    } else {
        it->rejecting = true;
        supervisory(it, false, REJ, p);
    }
    hear_nr(it, RR, true, false, nr);
}

static void hear_supervisory(plain *it, bool is_command, uint8_t control, uint8_t nr, bool pf) {
    it->peer_busy = control == RNR || (it->peer_busy && it->fault == RR_KEEPS_BUSY);
    if (is_command && pf)
        answer(it);
    hear_nr(it, control, false, !is_command && pf, nr);
}

static void hear_malformed(plain *it) {
    if (it->state < 7)
        return;
    if (it->fault == UNDEFINED_FRMR)
        unnumbered(it, false, FRMR, false);
    else
        sabme(it);
}

static void hear_unnumbered(plain *it, bool is_command, const uint8_t *o, size_t length) {
    bool pf = (o[2] & 0x10) != 0;
    size_t more = length - 3;
    switch (o[2] & ~0x10) {
    case XID: break;
    case UI:
        if (!is_command || (more > N201 && it->is_annex_b && it->state >= 7))
            hear_malformed(it);
        break;
    case SABME: is_command && more == 0 ? hear_sabme(it, pf) : hear_malformed(it); break;
    case DISC: is_command && more == 0 ? hear_disc(it, pf) : hear_malformed(it); break;
    case UA: !is_command && more == 0 ? hear_ua_or_dm(it, true, pf) : hear_malformed(it); break;
    case DM: !is_command && more == 0 ? hear_ua_or_dm(it, false, pf) : hear_malformed(it); break;
    case FRMR:
        if (is_command || more != 5)
            hear_malformed(it);
        else if (it->state >= 7 && it->fault != FRMR_IGNORED)
            sabme(it);
        break;
    default: hear_malformed(it);
    }
}

void plain_hear(plain *it, const uint8_t *o, size_t length) {
    if (length < 3 || (o[0] & ~2) != 0 || o[1] != 1 || ((o[2] & 3) != 3 && length < 4))
        return;
    bool is_command = ((o[0] & 2) != 0) != it->is_network;
    if ((o[2] & 3) == 3)
        hear_unnumbered(it, is_command, o, length);
    else if ((o[2] & 1) == 0 && is_command && (length <= N201 + 4 || it->fault == LONG_TAKEN))
        it->state >= 7 ? hear_i(it, o[2] >> 1, o[3] >> 1, o[3] & 1) : (void)0;
    else if ((o[2] == RR || o[2] == RNR || o[2] == REJ) && length == 4)
        it->state >= 7 ? hear_supervisory(it, is_command, o[2], o[3] >> 1, o[3] & 1) : (void)0;
    else
        hear_malformed(it);
}

/* ---- Expiries ---- */

static void t200_expires(plain *it) {
    bool is_again = it->rc < it->n200 + (it->fault == N200_MORE) - (it->fault == N200_LESS);
    it->t200_due = 0;
    if (it->state == 7) {
        if (it->fault == NO_T200)
            return;
        it->rc = (it->fault == RC_KEPT ? it->rc : 0) + (it->is_annex_b && it->n200 > 0);
        it->state = 8;
        enquiry(it);
        t200(it);
    } else if (it->state == 8) {
        if (!is_again) {
            sabme(it);
            return;
        }
        it->rc++;
        enquiry(it);
        t200(it);
    } else if (it->state == 5 || it->state == 6) {
        if (!is_again) {
            goes_down(it);
            return;
        }
        it->rc++;
        unnumbered(it, true, it->state == 5 ? SABME : DISC, it->state == 6 || it->fault != SABME_P0);
        t200(it);
    }
}

void plain_time(plain *it, uint64_t now) {
    it->now = now;
    if (it->t200_due != 0 && it->t200_due <= now)
        t200_expires(it);
    if (it->t203_due != 0 && it->t203_due <= now) {
        it->t203_due = 0;
        it->rc = it->fault == RC_KEPT ? it->rc : 0;
        it->state = 8;
        enquiry(it);
        t200(it);
    }
}

/* ---- Requests, and what goes ---- */

void plain_start(plain *it, bool is_network, bool is_annex_b, int k, int n200, uint64_t t200_ms, uint64_t t203_ms,
                 enum fault fault) {
    memset(it, 0, sizeof *it);
    it->is_network = is_network;
    it->is_annex_b = is_annex_b;
    it->k = k;
    it->n200 = n200;
    it->t200 = t200_ms;
    it->t203 = t203_ms;
    it->fault = fault;
    it->state = 4;
}

/* By annex B, in state 5: UA decides. */
static void owe(plain *it, bool is_release) {
    discard(it);
    it->owed = is_release;
}

void plain_establish(plain *it) {
    if (it->state == 4)
        sabme(it);
    else if (it->state == 5 && it->is_annex_b)
        owe(it, false);
}

void plain_release(plain *it) {
    if (it->state == 5 && it->is_annex_b)
        owe(it, true);
    if (it->state < 7)
        return;
    discard(it);
    it->pending = false;
    disconnect(it);
}

void plain_data(plain *it, const uint8_t *octets, size_t length) {
    if (it->state < 7 || it->accepted - it->a >= PLAIN_QUEUE / 2)
        return;
    plain_frame *place = contents_at(it, it->accepted++);
    memcpy(place->octets, octets, length);
    place->length = length;
}

void plain_busy(plain *it, bool is_busy) {
    if (it->state < 7 || it->own_busy == is_busy)
        return;
    it->own_busy = is_busy;
    supervisory(it, false, is_busy ? RNR : RR, false);
}

void plain_deactivate(plain *it) {
    plain fresh;
    plain_start(&fresh, it->is_network, it->is_annex_b, it->k, it->n200, it->t200, it->t203, it->fault);
    fresh.now = it->now;
    *it = fresh;
}

static bool may_send(const plain *it) {
    uint32_t most = (uint32_t)it->k + (it->fault == WINDOW);
    return (it->state == 7 || (it->state == 8 && it->fault == I_IN_8)) && (!it->peer_busy || it->fault == RNR_IGNORED)
        && it->s < it->accepted && it->s - it->a < most && it->s - it->a < 127;
}

static void next_i(plain *it, uint8_t *octets, size_t *length) {
    static unsigned count;
    const plain_frame *contents = contents_at(it, it->s);
    bool is_fourth = ++count % 4 == 0, is_command = !(it->fault == I_RESPONSE && is_fourth);
    uint32_t nr = it->r - (it->fault == NR_STALE && it->pending && it->r > 0);
    if (it->fault == SKIPS_NS && count % 10 == 0 && it->accepted - it->s > 1)
        it->s++;
    octets[0] = (uint8_t)(is_command == it->is_network ? 2 : 0);
    octets[1] = 1;
    octets[2] = (uint8_t)((it->s & 127) << 1);
    octets[3] = (uint8_t)((nr & 127) << 1 | (it->fault == I_WITH_P && is_fourth));
    memcpy(octets + 4, contents->octets, contents->length);
    *length = 4 + contents->length;
    it->s++;
    it->pending = false;
    if (it->t200_due == 0)
        t200(it);
}

bool plain_next(plain *it, uint8_t *octets, size_t *length) {
    if (it->waiting == 0 && may_send(it)) {
        next_i(it, octets, length);
        return true;
    }
    if (it->waiting == 0 && it->pending && it->fault != NO_ACK) {
        supervisory(it, false, RR, it->fault == PF_BITS);
        if (it->fault == DOUBLE_ACK)
            supervisory(it, false, RR, false);
    }
    if (it->waiting == 0)
        return false;
    const plain_frame *frame = &it->control[it->first];
    memcpy(octets, frame->octets, frame->length);
    *length = frame->length;
    it->first = (it->first + 1) % PLAIN_CONTROL;
    it->waiting--;
    return true;
}
