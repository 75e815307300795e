/*
 * lapd_core_link.c: a link of libosmocore's lapd_core.c (link.h), which is written after GSM 04.06. It sets no own busy.
 */
#include "lapd_core.c"

#include "link.h"

static struct lapd_datalink at;

/* ---- What lapd_core.c calls ------------------------------------------------------------------------------------------ */

struct log_info *osmo_log_info;
void logp2(int category, unsigned level, const char *file, int line, int goes_on, const char *format, ...) {}
void logp(int category, const char *file, int line, int goes_on, const char *format, ...) {}
void logp_stub(const char *file, int line, int goes_on, const char *format, ...) {}
int log_check_level(int category, unsigned level) { return 0; }
void osmo_panic(const char *format, ...) { abort(); }
char *osmo_hexdump(const unsigned char *octets, int length) { return ""; }
const char *get_value_string(const struct value_string *names, uint32_t value) { return ""; }

static int number_of(const struct osmo_timer_list *timer) { return timer == &at.t200 ? 200 : 203; }
void osmo_timer_setup(struct osmo_timer_list *timer, void (*call)(void *), void *data) {
    timer->cb = call;
    timer->data = data;
    timer->active = 0;
}
void osmo_timer_schedule(struct osmo_timer_list *timer, int seconds, int microseconds) {
    timer->active = 1;
    starts(number_of(timer));
}
void osmo_timer_del(struct osmo_timer_list *timer) {
    timer->active = 0;
    stops(number_of(timer));
}
int osmo_timer_pending(const struct osmo_timer_list *timer) { return timer->active; }

/* Its causes, by our letters. */
static char letter_of(int cause) {
    switch (cause) {
    case MDL_CAUSE_T200_EXPIRED: return at.state == LAPD_STATE_TIMER_RECOV ? 'I' : at.state == LAPD_STATE_DISC_SENT ? 'H' : 'G';
    case MDL_CAUSE_SEQ_ERR: return 'J';
    case MDL_CAUSE_UNSOL_UA_RESP: return 'C';
    case MDL_CAUSE_UNSOL_DM_RESP: return 'B';
    case MDL_CAUSE_UNSOL_DM_RESP_MF: return 'E';
    case MDL_CAUSE_UNSOL_SPRV_RESP: return 'A';
    case MDL_CAUSE_UFRM_INC_PARAM:
    case MDL_CAUSE_SFRM_INC_PARAM: return 'N';
    case MDL_CAUSE_IFRM_INC_LEN: return 'O';
    case MDL_CAUSE_FRM_UNIMPL: return 'L';
    case MDL_CAUSE_FRMR: return 'K';
    case MDL_CAUSE_SABM_MF: return 'F';
    default: return '?';
    }
}
static int up(struct osmo_dlsap_prim *it, struct lapd_msg_ctx *context) {
    bool is_indication = it->oph.operation == PRIM_OP_INDICATION;
    switch (it->oph.primitive) {
    case PRIM_DL_EST: tells(is_indication ? "establish indication" : "establish confirm"); break;
    case PRIM_DL_REL: tells(is_indication ? "release indication" : "release confirm"); break;
    case PRIM_DL_DATA: tells("data indication"); break;
    case PRIM_DL_UNIT_DATA: tells("unit data indication"); break;
    case PRIM_MDL_ERROR: tells_error(letter_of(it->u.error_ind.cause)); break;
    }
    if (it->oph.msg != NULL)
        msgb_free(it->oph.msg);
    return 0;
}
static int down(struct lapd_msg_ctx *of, struct msgb *contents) {
    uint8_t frame[4] = {of->cr << 1, TEI << 1 | 1};
    if (of->format == LAPD_FORM_U)
        frame[2] = (of->s_u & 0x1C) << 3 | of->p_f << 4 | (of->s_u & 3) << 2 | 3;
    else {
        frame[2] = of->format == LAPD_FORM_I ? of->n_send << 1 : of->s_u << 2 | 1;
        frame[3] = of->n_recv << 1 | of->p_f;
    }
    sends(frame, of->format == LAPD_FORM_U ? 3 : 4);
    msgb_free(contents);
    return 0;
}

/* ---- A link ---------------------------------------------------------------------------------------------------------- */

static struct msgb *holds(const uint8_t *octets, size_t length) {
    struct msgb *it = lapd_msgb_alloc(length + 64, "x");
    it->l3h = msgb_put(it, length);
    if (length > 0)
        memcpy(it->l3h, octets, length);
    return it;
}

static void begins(void) {
    static bool is_begun = false;
    if (is_begun)
        lapd_dl_exit(&at);
    is_begun = true;
    memset(&at, 0, sizeof at);
    lapd_dl_init2(&at, WINDOW, 128, MOST_OCTETS, "x");
    at.use_sabme = 1;
    at.send_ph_data_req = down;
    at.send_dlsap = up;
    at.lctx.dl = &at;
    at.lctx.tei = TEI;
    at.lctx.n201 = MOST_OCTETS;
    lapd_set_mode(&at, LAPD_MODE_NETWORK);
}

void stack_begin(const column *to) {
    static const int states[] = {[4] = LAPD_STATE_IDLE, LAPD_STATE_SABM_SENT, LAPD_STATE_DISC_SENT, LAPD_STATE_MF_EST,
                                 LAPD_STATE_TIMER_RECOV};
    begins();
    at.state = states[to->state];
    at.retrans_ctr = to->repeats;
    at.own_busy = to->own_busy;
    at.peer_busy = to->peer_busy;
    at.seq_err_cond = to->reject;
    if (to->state >= 7)
        at.v_send = to->outstanding;
    if (to->state == 5 || to->state == 6)
        at.tx_hist[0].msg = holds(NULL, 0);
    else
        for (int i = 0; i < to->outstanding; i++)
            at.tx_hist[i].msg = holds((const uint8_t *)"A", 1);
    for (int i = 0; i < to->unsent; i++)
        msgb_enqueue(&at.send_queue, holds((const uint8_t *)"A", 1));
    at.t200.active = to->timer == 200;
    at.t203.active = to->timer == 203;
}

int stack_state(void) {
    switch (at.state) {
    case LAPD_STATE_SABM_SENT: return 5;
    case LAPD_STATE_DISC_SENT: return 6;
    case LAPD_STATE_MF_EST: return 7;
    case LAPD_STATE_TIMER_RECOV: return 8;
    default: return 4;
    }
}

/* ---- Events ---------------------------------------------------------------------------------------------------------- */

/* Its callers read the control field. */
static bool hears(const uint8_t *octets, size_t length) {
    struct lapd_msg_ctx it = {.dl = &at, .tei = TEI, .cr = octets[0] >> 1 & 1, .n201 = MOST_OCTETS};
    size_t head = (octets[2] & 3) == 3 ? 3 : 4;
    if (head == 3) {
        it.format = LAPD_FORM_U;
        it.s_u = (octets[2] & 0x0C) >> 2 | (octets[2] & 0xE0) >> 3;
        it.p_f = octets[2] >> 4 & 1;
    } else {
        it.format = octets[2] & 1 ? LAPD_FORM_S : LAPD_FORM_I;
        it.s_u = octets[2] >> 2 & 3;
        it.n_send = octets[2] >> 1;
        it.n_recv = octets[3] >> 1;
        it.p_f = octets[3] & 1;
    }
    it.length = length - head;
    lapd_ph_data_ind(holds(octets + head, it.length), &it);
    return true;
}

static void asks(int primitive, const uint8_t *octets, size_t length) {
    struct osmo_dlsap_prim it;
    memset(&it, 0, sizeof it);
    osmo_prim_init(&it.oph, 0, primitive, PRIM_OP_REQUEST, holds(octets, length));
    lapd_recv_dlsap(&it, &at.lctx);
}

static void expires(void) {
    at.t200.active = 0;
    lapd_t200_cb(&at);
}

bool stack_meets(happening what, const uint8_t *octets, size_t length) {
    uint32_t before = at.state;
    switch (what) {
    case FRAME: return hears(octets, length);
    case T200: expires(); return true;
    case T203:
        at.t203.active = 0;
        lapd_t203_cb(&at);
        return true;
    case DATA: asks(PRIM_DL_DATA, octets, length); return before == LAPD_STATE_MF_EST || before == LAPD_STATE_TIMER_RECOV;
    case ESTABLISH: asks(PRIM_DL_EST, NULL, 0); return before == LAPD_STATE_IDLE;
    case RELEASE: asks(PRIM_DL_REL, NULL, 0); return before != LAPD_STATE_DISC_SENT;
    case LEAVE: lapd_dl_reset(&at); return true;
    case DOWN: lapd_dl_reset(&at); return true;
    default: return false;
    }
}
