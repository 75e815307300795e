/* misdn_cost.c: links of Linux's mISDN, its layer2.c and fsm.c over the stubs of kernel.h (cost.h). */
#include "kernel.h"

#include "fsm.c"
#include "layer2.c"

#include "cost.h"

static struct layer2 *links[LINKS];
static struct mISDNchannel upper;
static struct mISDNstack stack;
static struct mISDNdevice device;
static u_int no_debug;

int printk(const char *format, ...) { return 0; }
void add_timer(struct timer_list *timer) { timer->is_pending = true; }
int del_timer(struct timer_list *timer) {
    int was = timer->is_pending;
    timer->is_pending = false;
    return was;
}
void get_random_bytes(void *to, int count) { memset(to, 0, count); }
int l2_tei(struct layer2 *l2, u_int command, u_long argument) { return 0; }
void TEIrelease(struct layer2 *l2) {}
int TEIInit(u_int *debug_bits) { return 0; }
void TEIFree(void) {}
int mISDN_register_Bprotocol(struct Bprotocol *protocol) { return 0; }
void mISDN_unregister_Bprotocol(struct Bprotocol *protocol) {}
void set_channel_address(struct mISDNchannel *channel, u_int sapi, u_int tei) {}
const char *mISDNDevName4ch(struct mISDNchannel *channel) { return "x"; }

static int up(struct mISDNchannel *channel, struct sk_buff *it) {
    dev_kfree_skb(it);
    return 0;
}
static int down(struct mISDNchannel *of, struct sk_buff *it) {
    goes(it->data, it->len);
    test_and_clear_bit(FLG_L1_NOTREADY, &container_of(of, struct layer2, ch)->flag);
    dev_kfree_skb(it);
    return 0;
}
static int controls(struct mISDNchannel *channel, u_int command, void *argument) { return 0; }

void stack_starts(void) {
    Isdnl2_Init(&no_debug);
    upper.send = up;
    upper.st = &stack;
    stack.dev = &device;
    device.D.ctrl = controls;
    for (unsigned i = 0; i < LINKS; i++) {
        links[i] = create_l2(&upper, ISDN_P_LAPD_NT, 0, FIRST + i % TEIS, 0);
        links[i]->ch.recv = down;
        links[i]->ch.peer = &links[i]->ch;
        links[i]->ch.st = NULL;
        test_and_set_bit(FLG_L1_ACTIV, &links[i]->flag);
    }
}

static void takes(unsigned link, u_int prim, const uint8_t *octets, size_t length) {
    struct sk_buff *it = mI_alloc_skb(length, GFP_ATOMIC);
    skb_put_data(it, octets, length);
    mISDN_HEAD_PRIM(it) = prim;
    links[link]->ch.send(&links[link]->ch, it);
}

void stack_hears(unsigned link, const uint8_t *frame, size_t length) { takes(link, PH_DATA_IND, frame, length); }

void stack_sends(unsigned link, const uint8_t *octets, size_t length) { takes(link, DL_DATA_REQ, octets, length); }
