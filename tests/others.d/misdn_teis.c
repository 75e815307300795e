/*
 * misdn_teis.c: TEI management of Linux's mISDN, its tei.c over the stubs of kernel.h (teis.h), beside layer2.c and fsm.c. A
 * terminal asks for a TEI as layer 3 asks it for a link, and verifies as an error of layer 2 has it. A confirmation of each
 * frame comes at once.
 */
#include "kernel.h"

#include "tei.c"

#include "teis.h"

static struct manager *manager;
static struct layer2 *terminal;
static struct mISDNchannel upper;
static struct mISDNstack stack;
static struct mISDNdevice device;
static u_int no_debug;

/* ---- What they call -------------------------------------------------------------------------------------------------- */

static bool is_ours(struct timer_list *timer) {
    struct FsmInst *of = container_of(timer, struct FsmTimer, tl)->fi;
    return of->fsm == &teifsmu || of->fsm == &teifsmn;
}
void add_timer(struct timer_list *timer) {
    timer->is_pending = true;
    if (is_ours(timer))
        starts();
}
int del_timer(struct timer_list *timer) {
    int was = timer->is_pending;
    timer->is_pending = false;
    if (was && is_ours(timer))
        stops();
    return was;
}
int printk(const char *format, ...) { return 0; }
/* Each number is another. */
void get_random_bytes(void *to, int count) {
    static uint16_t number = 1000;
    number++;
    memcpy(to, &number, count < 2 ? count : 2);
}
int mISDN_register_Bprotocol(struct Bprotocol *protocol) { return 0; }
void mISDN_unregister_Bprotocol(struct Bprotocol *protocol) {}
void set_channel_address(struct mISDNchannel *channel, u_int sapi, u_int tei) { channel->addr = sapi | tei << 8; }
const char *mISDNDevName4ch(struct mISDNchannel *channel) { return "x"; }
void add_layer2(struct mISDNchannel *channel, struct mISDNstack *of) { INIT_LIST_HEAD(&channel->list); }
void __add_layer2(struct mISDNchannel *channel, struct mISDNstack *of) { INIT_LIST_HEAD(&channel->list); }

static int up(struct mISDNchannel *channel, struct sk_buff *it) {
    dev_kfree_skb(it);
    return 0;
}
static int down(struct mISDNchannel *channel, struct sk_buff *it) {
    struct layer2 *at;
    sends(it->data, it->len);
    test_and_clear_bit(MGR_PH_NOTREADY, &manager->options);
    list_for_each_entry(at, &manager->layer2, list)
        test_and_clear_bit(FLG_L1_NOTREADY, &at->flag);
    dev_kfree_skb(it);
    return 0;
}
static int controls(struct mISDNchannel *channel, u_int command, void *argument) { return 0; }

/* ---- A line ---------------------------------------------------------------------------------------------------------- */

static void begins_terminal(void) {
    struct channel_req asked = {.protocol = ISDN_P_LAPD_TE, .adr = {.tei = GROUP_TEI}, .ch = &upper};
    create_teimgr(manager, &asked);
    terminal = container_of(asked.ch, struct layer2, ch);
    terminal->ch.recv = down;
    INIT_LIST_HEAD(&terminal->ch.list);
    test_and_set_bit(FLG_L1_ACTIV, &terminal->flag);
}

void stack_begin(bool is_network) {
    static bool is_begun = false;
    if (!is_begun)
        Isdnl2_Init(&no_debug);
    if (is_begun)
        delete_teimanager(&manager->ch);
    is_begun = true;
    device.D.st = &stack;
    device.D.ctrl = controls;
    stack.dev = &device;
    stack.own.ctrl = controls;
    upper.send = up;
    upper.st = &stack;
    create_teimanager(&device);
    manager = container_of(device.teimgr, struct manager, ch);
    manager->ch.recv = down;
    test_and_set_bit(MGR_PH_ACTIVE, &manager->options);
    test_and_set_bit(is_network ? MGR_OPT_NETWORK : MGR_OPT_USER, &manager->options);
    terminal = NULL;
    if (is_network)
        manager->up = &upper;
    else
        begins_terminal();
}

/* What is no message goes to the link that has its TEI, or to nobody. */
void stack_hears(const uint8_t *frame, size_t length) {
    struct sk_buff *it = mI_alloc_skb(length, GFP_ATOMIC);
    skb_put_data(it, frame, length);
    mISDN_HEAD_PRIM(it) = PH_DATA_IND;
    if (frame[0] >> 2 == TEI_SAPI)
        ph_data_ind(manager, it);
    else
        check_data(manager, it);
}

void stack_expires(void) {
    struct layer2 *at;
    list_for_each_entry(at, &manager->layer2, list)
        if (at->tm->timer.tl.is_pending) {
            at->tm->timer.tl.is_pending = false;
            mISDN_FsmEvent(&at->tm->tei_m, EV_TIMER, NULL);
            return;
        }
}

void stack_asks(void) {
    struct sk_buff *it = mI_alloc_skb(0, GFP_ATOMIC);
    mISDN_HEAD_PRIM(it) = DL_ESTABLISH_REQ;
    if (terminal->l2m.state == ST_L2_1)
        terminal->ch.send(&terminal->ch, it);
}

void stack_verifies(void) { l2_tei(terminal, MDL_ERROR_IND, 0); }

bool stack_has(int tei) {
    struct layer2 *at;
    list_for_each_entry(at, &manager->layer2, list)
        if (at->tei == tei)
            return true;
    return false;
}
