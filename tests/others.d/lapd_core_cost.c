/* lapd_core_cost.c: links of libosmocore's lapd_core.c (cost.h). Its callers read the control field, as is done here. */
#include "lapd_core.c"

#include "cost.h"

enum { HEADROOM = 64 };

static struct lapd_datalink *links;

struct log_info *osmo_log_info;
void logp2(int category, unsigned level, const char *file, int line, int goes_on, const char *format, ...) {}
void logp(int category, const char *file, int line, int goes_on, const char *format, ...) {}
void logp_stub(const char *file, int line, int goes_on, const char *format, ...) {}
int log_check_level(int category, unsigned level) { return 0; }
void osmo_panic(const char *format, ...) { abort(); }
char *osmo_hexdump(const unsigned char *octets, int length) { return ""; }
const char *get_value_string(const struct value_string *names, uint32_t value) { return ""; }
void osmo_timer_setup(struct osmo_timer_list *timer, void (*call)(void *), void *data) { timer->active = 0; }
void osmo_timer_schedule(struct osmo_timer_list *timer, int seconds, int microseconds) { timer->active = 1; }
void osmo_timer_del(struct osmo_timer_list *timer) { timer->active = 0; }
int osmo_timer_pending(const struct osmo_timer_list *timer) { return timer->active; }

static int up(struct osmo_dlsap_prim *it, struct lapd_msg_ctx *context) {
    if (it->oph.msg != NULL)
        msgb_free(it->oph.msg);
    return 0;
}
static int down(struct lapd_msg_ctx *of, struct msgb *contents) {
    uint8_t frame[4] = {of->cr << 1, of->tei << 1 | 1};
    if (of->format == LAPD_FORM_U)
        frame[2] = (of->s_u & 0x1C) << 3 | of->p_f << 4 | (of->s_u & 3) << 2 | 3;
    else {
        frame[2] = of->format == LAPD_FORM_I ? of->n_send << 1 : of->s_u << 2 | 1;
        frame[3] = of->n_recv << 1 | of->p_f;
    }
    goes(frame, sizeof frame);
    msgb_free(contents);
    return 0;
}

static struct msgb *holds(const uint8_t *octets, size_t length) {
    struct msgb *it = lapd_msgb_alloc(length, "x");
    it->l3h = msgb_put(it, length);
    memcpy(it->l3h, octets, length);
    return it;
}

void stack_starts(void) {
    links = calloc(LINKS, sizeof *links);
    for (unsigned i = 0; i < LINKS; i++) {
        struct lapd_datalink *it = &links[i];
        lapd_dl_init2(it, WINDOW, 128, MOST_OCTETS, "x");
        it->use_sabme = 1;
        it->send_ph_data_req = down;
        it->send_dlsap = up;
        it->lctx.dl = it;
        it->lctx.tei = FIRST + i % TEIS;
        it->lctx.n201 = MOST_OCTETS;
        lapd_set_mode(it, LAPD_MODE_NETWORK);
        it->state = LAPD_STATE_IDLE;
    }
}

void stack_hears(unsigned link, const uint8_t *octets, size_t length) {
    struct lapd_msg_ctx it = {.dl = &links[link], .tei = FIRST + link % TEIS, .cr = octets[0] >> 1 & 1, .n201 = MOST_OCTETS};
    size_t head = (octets[2] & 3) == 3 ? 3 : 4;
    if (head == 3) {
        it.format = LAPD_FORM_U;
        it.s_u = (octets[2] & 0x0C) >> 2 | (octets[2] & 0xE0) >> 3;
        it.p_f = octets[2] >> 4 & 1;
    } else {
        it.format = octets[2] & 1 ? LAPD_FORM_S : LAPD_FORM_I;
        it.s_u = octets[2] >> 2 & 3;
        it.n_send = octets[2] >> 1;
        it.n_recv = octets[3] >> 1;
        it.p_f = octets[3] & 1;
    }
    it.length = length - head;
    lapd_ph_data_ind(holds(octets + head, it.length), &it);
}

void stack_sends(unsigned link, const uint8_t *octets, size_t length) {
    struct osmo_dlsap_prim it;
    memset(&it, 0, sizeof it);
    osmo_prim_init(&it.oph, 0, PRIM_DL_DATA, PRIM_OP_REQUEST, holds(octets, length));
    lapd_recv_dlsap(&it, &links[link].lctx);
}
