/* libpri_cost.c: links of libpri, its q921.c (cost.h), on lines of basic access with many terminals. */
#include "q921.c"

#include "cost.h"

enum { CHECK_OCTETS = 2 };

static struct pri *lines;

unsigned pri_schedule_event(struct pri *of, int after, void (*call)(void *), void *data) { return 1; }
void pri_schedule_del(struct pri *of, unsigned which) {}
void pri_message(struct pri *of, const char *format, ...) {}
void pri_error(struct pri *of, const char *format, ...) {}
pri_event *pri_mkerror(struct pri *of, char *text) { return NULL; }
struct q921_link *pri_link_new(struct pri *of, int sapi, int tei) {
    struct q921_link *it = calloc(1, sizeof *it);
    it->ctrl = of;
    it->sapi = sapi;
    it->tei = tei;
    return it;
}
void pri_link_destroy(struct q921_link *it) { free(it); }
void q931_dump(struct pri *of, int tei, q931_h *h, int length, int is_sent) {}
int q931_receive(struct q921_link *it, q931_h *h, int length) { return 0; }
void q931_dl_event(struct q921_link *it, enum Q931_DL_EVENT event) {}
static int writes(struct pri *of, void *octets, int length) {
    goes(octets, length - CHECK_OCTETS);
    return length;
}

static void starts(struct pri *line) {
    struct q921_link **last = &line->link.next;
    line->localtype = PRI_NETWORK;
    line->bri = 1;
    line->link.tei = Q921_TEI_GROUP;
    line->link.ctrl = line;
    line->write_func = writes;
    for (int i = 0; i < PRI_MAX_TIMERS; i++)
        line->timers[i] = -1;
    line->timers[PRI_TIMER_N200] = 3;
    line->timers[PRI_TIMER_K] = WINDOW;
    line->timers[PRI_TIMER_T200] = 1000;
    line->timers[PRI_TIMER_T203] = 10000;
    line->timers[PRI_TIMER_N201] = MOST_OCTETS;
    for (int i = 0; i < TEIS; i++) {
        *last = pri_link_new(line, 0, FIRST + i);
        (*last)->state = Q921_TEI_ASSIGNED;
        last = &(*last)->next;
    }
}

void stack_starts(void) {
    lines = calloc(LINES, sizeof *lines);
    for (int i = 0; i < LINES; i++)
        starts(&lines[i]);
}

void stack_hears(unsigned link, const uint8_t *frame, size_t length) {
    uint8_t whole[4 + MOST_OCTETS + CHECK_OCTETS];
    memcpy(whole, frame, length);
    __q921_receive(&lines[link / TEIS], (q921_h *)whole, length + CHECK_OCTETS);
}

void stack_sends(unsigned link, const uint8_t *octets, size_t length) {
    uint8_t copy[MOST_OCTETS];
    memcpy(copy, octets, length);
    q921_transmit_iframe(pri_find_tei(&lines[link / TEIS], 0, FIRST + link % TEIS), copy, length, 1);
}
