/*
 * misdn_link.c: a link of Linux's mISDN, its layer2.c and fsm.c over the stubs of kernel.h (link.h). After each event a driver
 * confirms each frame that was sent, one by one, as in Linux: until then the next waits, and only the last one's confirmation has
 * the link look for I-frames that may go. If the event sent nothing, nothing is confirmed.
 *
 * Words of the command line that make differences alike: `reject-timers` (after REJ in state 7, T200 runs if anything is
 * outstanding, and T203 otherwise), `reject-sends` (REJ that ends the other end's busy lets I-frames go), `clear-busy` (the end
 * of own busy is told if it was busy), `final-rnr` (RNR with F=1 acknowledges in state 8),
 * `kept-release` (UA that meets a release of state 5 leads to state 6).
 */
#include "kernel.h"

#include "fsm.c"
#include "layer2.c"

/* Their names of kinds of frames stand in the way of ours. */
#include "link.h"

static struct layer2 *at;
static struct mISDNchannel upper;
static struct mISDNstack stack;
static struct mISDNdevice device;
static u_int no_debug;
static struct sk_buff *unconfirmed; /* a frame that was sent, or null */

/* ---- What layer2.c calls --------------------------------------------------------------------------------------------- */

int printk(const char *format, ...) {
    va_list rest;
    if (strstr(format, "l2mgr:") != NULL) {
        va_start(rest, format);
        (void)va_arg(rest, char *);
        (void)va_arg(rest, int);
        (void)va_arg(rest, int);
        tells_error((char)va_arg(rest, int));
        va_end(rest);
    }
    return 0;
}
static int number_of(struct timer_list *timer) { return timer == &at->t200.tl ? 200 : 203; }
void add_timer(struct timer_list *timer) {
    timer->is_pending = true;
    starts(number_of(timer));
}
int del_timer(struct timer_list *timer) {
    int was = timer->is_pending;
    timer->is_pending = false;
    if (at != NULL)
        stops(number_of(timer));
    return was;
}
void get_random_bytes(void *to, int count) { memset(to, 0, count); }
int l2_tei(struct layer2 *l2, u_int command, u_long argument) { return 0; }
void TEIrelease(struct layer2 *l2) {}
int TEIInit(u_int *debug_bits) { return 0; }
void TEIFree(void) {}
int mISDN_register_Bprotocol(struct Bprotocol *protocol) { return 0; }
void mISDN_unregister_Bprotocol(struct Bprotocol *protocol) {}
void set_channel_address(struct mISDNchannel *channel, u_int sapi, u_int tei) {}
const char *mISDNDevName4ch(struct mISDNchannel *channel) { return "x"; }

static int up(struct mISDNchannel *channel, struct sk_buff *it) {
    switch (mISDN_HEAD_PRIM(it)) {
    case DL_ESTABLISH_IND: tells("establish indication"); break;
    case DL_ESTABLISH_CNF: tells("establish confirm"); break;
    case DL_RELEASE_IND: tells("release indication"); break;
    case DL_RELEASE_CNF: tells("release confirm"); break;
    case DL_DATA_IND: tells("data indication"); break;
    case DL_UNITDATA_IND: tells("unit data indication"); break;
    }
    dev_kfree_skb(it);
    return 0;
}
static int down(struct mISDNchannel *channel, struct sk_buff *it) {
    sends(it->data, it->len);
    unconfirmed = it;
    return 0;
}
static int control(struct mISDNchannel *channel, u_int command, void *argument) { return 0; }

/* ---- A link ---------------------------------------------------------------------------------------------------------- */

static void put(int flag, int is_on) {
    if (is_on)
        test_and_set_bit(flag, &at->flag);
}

static void ends(void) {
    if (at == NULL)
        return;
    skb_queue_purge(&at->i_queue);
    skb_queue_purge(&at->ui_queue);
    skb_queue_purge(&at->down_queue);
    freewin(at);
    kfree(at);
    at = NULL;
}

static void begins(void) {
    static bool is_begun = false;
    if (!is_begun)
        Isdnl2_Init(&no_debug);
    is_begun = true;
    ends();
    upper.send = up;
    upper.st = &stack;
    stack.dev = &device;
    device.D.ctrl = control;
    at = create_l2(&upper, ISDN_P_LAPD_NT, 0, TEI, 0);
    at->window = WINDOW;
    at->maxlen = MOST_OCTETS;
    at->ch.recv = down;
    at->ch.st = NULL;
}

void stack_begin(const column *to) {
    begins();
    put(FLG_L1_ACTIV, 1);
    put(FLG_L3_INIT, to->asked);
    put(FLG_OWN_BUSY, to->own_busy);
    put(FLG_PEER_BUSY, to->peer_busy);
    put(FLG_REJEXC, to->reject);
    put(FLG_T200_RUN, to->timer == 200);
    at->t200.tl.is_pending = to->timer == 200;
    at->t203.tl.is_pending = to->timer == 203;
    at->l2m.state = to->state - 1;
    at->rc = to->repeats;
    at->vs = to->outstanding;
    for (int i = 0; i < to->outstanding + to->unsent; i++) {
        struct sk_buff *it = mI_alloc_skb(1, GFP_ATOMIC);
        skb_put_data(it, "A", 1);
        if (i < to->outstanding)
            at->windowar[i] = it;
        else
            skb_queue_tail(&at->i_queue, it);
    }
}

int stack_state(void) { return at->l2m.state == ST_L2_1 ? 4 : at->l2m.state + 1; }

/* ---- Events ---------------------------------------------------------------------------------------------------------- */

/* After REJ in state 7. */
static void mend_reject(void) {
    if (at->l2m.state != ST_L2_7)
        return;
    if (at->vs == at->va) {
        stop_t200(at, 0);
        mISDN_FsmRestartTimer(&at->t203, at->T203, EV_L2_T203, NULL, 0);
    } else {
        mISDN_FsmDelTimer(&at->t203, 0);
        restart_t200(at, 0);
    }
}

/* UA in state 5, if a release was kept there: nothing is told of the establishment; */
static void forget_establishment(void) {
    (void)test_and_clear_bit(FLG_L3_INIT, &at->flag);
    freewin(at);
    at->vs = at->va;
}

/* and after it DISC has gone, and its answer is awaited. */
static void mend_release(void) {
    mISDN_FsmDelTimer(&at->t203, 0);
    restart_t200(at, 0);
    mISDN_FsmChangeState(&at->l2m, ST_L2_6);
}

static bool hears(const uint8_t *octets, size_t length) {
    bool is_released = octets[2] == (UA | 0x10) && length == 3 && at->l2m.state == ST_L2_5 && test_bit(FLG_PEND_REL, &at->flag)
                       && is_alike("kept-release");
    bool is_reject = octets[2] == REJ && at->l2m.state == ST_L2_7;
    bool is_final = octets[2] == RNR && (octets[0] & 2) && length == 4 && (octets[3] & 1) && at->l2m.state == ST_L2_8;
    if (is_final && is_alike("final-rnr") && legalnr(at, octets[3] >> 1))
        setva(at, octets[3] >> 1);
    if (is_released)
        forget_establishment();
    struct sk_buff *it = mI_alloc_skb(length, GFP_ATOMIC);
    skb_put_data(it, octets, length);
    mISDN_HEAD_PRIM(it) = PH_DATA_IND;
    bool is_refused = ph_data_indication(at, mISDN_HEAD_P(it), it) != 0;
    if (is_released)
        mend_release();
    if (is_reject && is_alike("reject-timers"))
        mend_reject();
    if (is_reject && is_alike("reject-sends"))
        mISDN_FsmEvent(&at->l2m, EV_L2_ACK_PULL, NULL);
    return !is_refused;
}

static bool asks(int event, const uint8_t *octets, size_t length) {
    struct sk_buff *it = mI_alloc_skb(length, GFP_ATOMIC);
    if (length > 0)
        skb_put_data(it, octets, length);
    if (event == EV_L2_CLEAR_OWN_BUSY && is_alike("clear-busy") && !test_and_clear_bit(FLG_OWN_BUSY, &at->flag))
        return true;
    if (mISDN_FsmEvent(&at->l2m, event, it) == 0)
        return true;
    dev_kfree_skb(it);
    return false;
}

static void expires_200(void) {
    at->t200.tl.is_pending = false;
    mISDN_FsmEvent(&at->l2m, EV_L2_T200I, NULL);
}

static void expires_203(void) {
    at->t203.tl.is_pending = false;
    mISDN_FsmEvent(&at->l2m, EV_L2_T203I, NULL);
}

static bool meets(happening what, const uint8_t *octets, size_t length) {
    switch (what) {
    case FRAME: return hears(octets, length);
    case T200: expires_200(); return true;
    case T203: expires_203(); return true;
    case ESTABLISH: return asks(EV_L2_DL_ESTABLISH_REQ, NULL, 0);
    case RELEASE: return asks(EV_L2_DL_RELEASE_REQ, NULL, 0);
    case DATA: return asks(EV_L2_DL_DATA, octets, length);
    case BUSY: return asks(EV_L2_SET_OWN_BUSY, NULL, 0);
    case READY: return asks(EV_L2_CLEAR_OWN_BUSY, NULL, 0);
    case LEAVE: return asks(EV_L2_MDL_REMOVE, NULL, 0);
    default: return asks(EV_L1_DEACTIVATE, NULL, 0);
    }
}

bool stack_meets(happening what, const uint8_t *octets, size_t length) {
    bool is_served = meets(what, octets, length);
    while (unconfirmed != NULL) {
        struct sk_buff *it = unconfirmed;
        unconfirmed = NULL;
        ph_data_confirm(at, mISDN_HEAD_P(it), it);
    }
    return is_served;
}
