/*
 * plain.h: an end of one data link in plain C, written from docs/MACHINE.md by itself, with one row wrong if it is told so. It has
 * nothing of the library, so what a monitor says of it is no word of the library's.
 */
#ifndef PLAIN_H
#define PLAIN_H

#include <stdbool.h>
#include <stddef.h>
#include <stdint.h>

enum { PLAIN_MOST = 300, PLAIN_QUEUE = 256, PLAIN_CONTROL = 16 };

/* Which row is wrong; their names, and what each does, are in faults.c. */
enum fault {
    NONE,
    REJ_REPEATED, NO_REJ, RNR_IGNORED, RR_KEEPS_BUSY, WINDOW, WRONG_F, NO_ANSWER, NO_ANSWER_I, NR_STALE, NR_NOT_ADVANCED,
    SABME_DM, UA_F0, DISC4_UA, RC_KEPT, N200_MORE, N200_LESS, T200_HALF, T200_90, T200_LONG, NO_T200,
    REJ_NO_BACK, F1_NO_BACK, I_IN_8, ENQUIRY_RESPONSE, ENQUIRY_RR, BUSY_ACCEPTS, INVALID_NR, ZERO_VR, DOUBLE_ACK, NO_ACK,
    REJECT_KEPT, PF_BITS, DM_F0, I_WITH_P, SABME_P0, FRMR_IGNORED, UNDEFINED_FRMR, DISC_NO_UA, SKIPS_NS, UA_TWICE,
    ANSWER_RR, I_RESPONSE, T203_SHORT, LONG_TAKEN, FAULTS
};

typedef struct {
    const char *name, *what;
} fault_words;
extern const fault_words faults[FAULTS];

typedef struct {
    uint8_t octets[PLAIN_MOST];
    size_t length;
} plain_frame;

typedef struct {
    /* what it is configured with */
    bool is_network, is_annex_b;
    int k, n200;
    uint64_t t200, t203;
    enum fault fault;
    /* what it is in */
    int state;
    uint32_t a, s, r, accepted; /* not modulo 128 */
    bool peer_busy, own_busy, rejecting, pending, owed;
    int rc;
    uint64_t t200_due, t203_due; /* 0: it does not run */
    plain_frame queue[PLAIN_QUEUE];     /* contents by their number, from the place of number 0 on, going round */
    uint32_t oldest;                    /* the place of number 0 */
    plain_frame control[PLAIN_CONTROL]; /* frames that wait */
    unsigned first, waiting;
    uint64_t now;
} plain;

void plain_start(plain *it, bool is_network, bool is_annex_b, int k, int n200, uint64_t t200, uint64_t t203, enum fault fault);
void plain_time(plain *it, uint64_t now); /* expires what is due */
void plain_hear(plain *it, const uint8_t *octets, size_t length);
bool plain_next(plain *it, uint8_t *octets, size_t *length);

/* Requests of layer 3. One that the state does not serve does nothing. */
void plain_establish(plain *it);
void plain_release(plain *it);
void plain_data(plain *it, const uint8_t *octets, size_t length);
void plain_busy(plain *it, bool is_busy);
void plain_deactivate(plain *it);

#endif
