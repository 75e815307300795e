/*
 * stack.c: how much stack the calls of the library take, measured: each call of a conversation runs on a stack of its own,
 * which is painted before. With heap.c, whose functions of memory take little, and linked with -z now, since the linker
 * takes some KB of stack where it first finds a function later. For tests alone.
 *
 *     stack          prints octets of stack by call; status 1 where a call takes more than docs/EMBEDDING.md allows
 */
#define _XOPEN_SOURCE 700

#include <stdio.h>
#include <string.h>
#include <ucontext.h>

#include "hdlc.h"
#include "lapd.h"

#ifndef MOST
#define MOST 2048
#define MOST_OF_START 6144
#define MOST_OF_RESTORE 7168
#define MOST_OF_TEXT MOST
#endif

enum { PAINT = 0xA5, STACK = 65536 };

static uint8_t stack[STACK];
static ucontext_t here, there;
static lapd_card card, other;
static lapd_clock timers, other_timers;
static lapd_report report;
static const lapd_config config = {.lines = 1, .terminals = 8, .k = 7, .k16 = 7, .queue = 8, .unit_queue = 4, .control = 4, .slots = 8,
                                   .n201 = 260, .n200 = 3};
static const lapd_lengths lengths = {1000, 10000, 1000, 2000, {0}};

/* What is called, and what it is called with. */
static void (*called)(void);
static uint8_t octet, octets[32], given[32], frame[LAPD_MOST_FRAME], whole[LAPD_MOST_FRAME];
static size_t length;
static lapd_due due;
static size_t steps;
static uint8_t place;
static lapd_link link;
static struct lapd_room room;
static lapd_head head;
static lapd_fields fields;
static struct lapd_counters counters;
static struct lapd_link_counters of_link;
static char text[LAPD_MOST_TEXT];
static uint32_t status, waiting;
static uint64_t moment;
static uint8_t image[1 << 14];
static size_t of_image;

static void run(void) {
    called();
}

/* The octets of stack that a call takes, with what it takes to come and go. */
static size_t taken(void (*call)(void)) {
    called = call;
    memset(stack, PAINT, sizeof stack);
    getcontext(&there);
    there.uc_stack.ss_sp = stack;
    there.uc_stack.ss_size = sizeof stack;
    there.uc_link = &here;
    makecontext(&there, run, 0);
    swapcontext(&here, &there);
    size_t untouched = 0;
    while (untouched < sizeof stack && stack[untouched] == PAINT)
        untouched++;
    return sizeof stack - untouched;
}

static void nothing(void) {}
static void card_start(void) { status = lapd_card_start(&card, &config); }
static void card_free(void) { status = lapd_card_free(&card); }
static void clock_start(void) { status = lapd_clock_start(&timers, &config); }
static void clock_free(void) { status = lapd_clock_free(&timers); }
static void take(void) { status = lapd_octet(&card, 0, octet, &report); }
static void give(void) { status = lapd_pull(&card, 0, &octet, &report); }
static void assign(void) { status = lapd_assign(&card, 0, 64, &report); }
static void ask_data(void) { status = lapd_data(&card, 0, LAPD_CALL, 64, octets, sizeof octets, &report); }
static void expire(void) { status = lapd_expire(&card, due.line, &due.timer, &report); }
static void apply(void) { status = lapd_clock_apply_report(&timers, 0, &report, 0); }
static void find_due(void) { status = lapd_clock_due(&timers, LAPD_LATEST, &due); }
static void frames_start(void) { status = lapd_card_start_frames(&card, &config); }
static void timed_start(void) { status = lapd_card_start_timed(&card, &config, &lengths); }
static void timed_frames_start(void) { status = lapd_card_start_frames_timed(&card, &config, &lengths); }
static void fall_due(void) { status = lapd_fall_due(&card, LAPD_LATEST - 1, &report); }
static void find_moment(void) { status = lapd_next_moment(&card, &moment); }
static void find_now(void) { status = lapd_now(&card, &moment); }
static void find_change(void) { status = lapd_changed_at(&card, 0, LAPD_CALL, 64, &moment); }
static void card_save(void) { status = lapd_card_save(&card, image, sizeof image, &of_image); }
static void card_restore(void) { status = lapd_card_restore(&other, image, of_image); }
static void other_free(void) { status = lapd_card_free(&other); }
static void clock_save(void) { status = lapd_clock_save(&timers, image, sizeof image, &of_image); }
static void clock_restore(void) { status = lapd_clock_restore(&other_timers, image, of_image); }
static void other_clock_free(void) { status = lapd_clock_free(&other_timers); }
static void set_lengths(void) { status = lapd_card_set_lengths(&card, &lengths); }
static void take_frame(void) { status = lapd_frame(&card, 0, octets, length, &report); }
static void fail_frame(void) { status = lapd_frame_failed(&card, 0, LAPD_FCS, &report); }
static void give_frame(void) { status = lapd_next_frame(&card, 0, frame, sizeof frame, &length, &report); }
static void find_waiting(void) { status = lapd_next_waiting(&card, 0, &waiting); }
static void find_link(void) { status = lapd_next_link(&card, 0, &place, &link); }
static void ask_room(void) { status = lapd_room(&card, 0, LAPD_CALL, 64, &room); }
static void ask_begun(void) { status = lapd_begun(&card, 0, &head); }
static void ask_heard(void) { status = lapd_heard(&card, 0, &head); }
static void ask_begun_frame(void) { status = lapd_begun_frame(&card, 0, whole, sizeof whole, &length); }
static void ask_heard_frame(void) { status = lapd_heard_frame(&card, 0, whole, sizeof whole, &length); }
static void ask_counters(void) { status = lapd_counters(&card, 0, &counters); }
static void ask_of_link(void) { status = lapd_link_counters(&card, 0, LAPD_CALL, 64, &of_link); }
static void ask_fields(void) { status = lapd_frame_read(frame, sizeof frame, LAPD_USER, &fields); }
static void ask_text(void) { status = lapd_frame_text(frame, sizeof frame, LAPD_USER, text, sizeof text); }
static void exchange(void) { status = lapd_exchange(&card, 0, octets, sizeof octets, given, sizeof given, &steps, &report); }

static size_t base;
static bool failed;

/* What a call took, which is no more than that. */
static size_t within(size_t limit, void (*call)(void)) {
    size_t own = taken(call) - base;
    failed |= status != LAPD_OK || own > limit;
    return own;
}

/* The most that calls of a kind took. */
static size_t most(size_t before, void (*call)(void)) {
    size_t own = within(MOST, call);
    return own > before ? own : before;
}

static void show(const char *name, size_t own) {
    printf("%-28s %5zu\n", name, own);
}

/* A frame that comes, with its octets and the pulls after them. */
static void hear(hdlc_sender *sender, const uint8_t *frame, size_t length, size_t *takes, size_t *gives, size_t *applies) {
    hdlc_load(sender, frame, length);
    for (size_t left = hdlc_left(sender), given = 0; given < left; given += 8) {
        octet = hdlc_octet(sender);
        *takes = most(*takes, take);
        *applies = most(*applies, apply);
        *gives = most(*gives, give);
        *applies = most(*applies, apply);
    }
}

/* A card is saved, and another restored from its image. */
static void saves(const char *save, const char *restore) {
    show(save, most(0, card_save));
    show(restore, within(MOST_OF_RESTORE, card_restore));
    most(0, other_free);
}

/* The same of a card of frames, and of one that keeps its own timers: what comes, what is then sent, and what falls due. */
static void frames(bool is_timed, const uint8_t *const *come, const size_t *octets_of, size_t count) {
    size_t takes = 0, gives = 0;
    if (is_timed)
        show("lapd_card_start_frames_timed", within(MOST_OF_START, timed_frames_start));
    else
        show("lapd_card_start_frames", within(MOST_OF_START, frames_start));
    most(0, assign);
    for (size_t i = 0; i < count; i++) {
        length = octets_of[i];
        memcpy(octets, come[i], length);
        takes = most(takes, take_frame);
        gives = most(gives, give_frame);
    }
    most(0, ask_data);
    show("lapd_next_waiting", most(0, find_waiting));
    show(is_timed ? "lapd_frame, own timers" : "lapd_frame", takes);
    show(is_timed ? "lapd_next_frame, own timers" : "lapd_next_frame", most(gives, give_frame));
    show("lapd_frame_failed", most(0, fail_frame));
    if (is_timed) {
        saves("lapd_card_save, own timers", "lapd_card_restore, own timers");
        show("lapd_next_moment", most(0, find_moment));
        show("lapd_now", most(0, find_now));
        show("lapd_changed_at", most(0, find_change));
        show("lapd_card_set_lengths", most(0, set_lengths));
        show("lapd_fall_due", most(0, fall_due));
    }
    most(0, card_free);
}

int main(void) {
    static hdlc_sender sender;
    static const uint8_t request[] = {0xFC, 0xFF, 0x03, 0x0F, 0x12, 0x34, 0x01, 0xFF}, sabme[] = {0x00, 0x81, 0x7F},
                         data[] = {0x00, 0x81, 0x00, 0x00, 0x08, 0x01}, twice[] = {0x00, 0x81, 0x06, 0x01, 0x08};
    size_t takes = 0, gives = 0, applies = 0;
    base = taken(nothing);
    show("lapd_card_start", within(MOST_OF_START, card_start));
    show("lapd_clock_start", most(0, clock_start));
    show("lapd_request, assign", most(0, assign));
    hdlc_begin(&sender);
    hear(&sender, request, sizeof request, &takes, &gives, &applies);
    hear(&sender, sabme, sizeof sabme, &takes, &gives, &applies);
    hear(&sender, data, sizeof data, &takes, &gives, &applies);
    hear(&sender, twice, sizeof twice, &takes, &gives, &applies);
    size_t heard = most(0, ask_heard_frame);
    show("lapd_request, data", most(0, ask_data));
    for (int i = 0; i < 64; i++)
        gives = most(gives, give);
    applies = most(applies, apply);
    show("lapd_octet", takes);
    show("lapd_pull", gives);
    show("lapd_exchange", most(0, exchange));
    applies = most(applies, apply);
    show("lapd_clock_apply_report", applies);
    show("lapd_clock_due", most(0, find_due));
    show("lapd_expire", most(0, expire));
    show("lapd_next_link", most(0, find_link));
    show("lapd_room", most(0, ask_room));
    show("lapd_begun", most(0, ask_begun));
    show("lapd_heard", most(0, ask_heard));
    show("lapd_begun_frame", most(0, ask_begun_frame));
    show("lapd_heard_frame", heard);
    show("lapd_counters", most(0, ask_counters));
    show("lapd_link_counters", most(0, ask_of_link));
    frame[1] = 0x81; /* an I-frame */
    show("lapd_frame_read", within(MOST_OF_TEXT, ask_fields));
    show("lapd_frame_text", within(MOST_OF_TEXT, ask_text));
    saves("lapd_card_save", "lapd_card_restore");
    show("lapd_clock_save", most(0, clock_save));
    show("lapd_clock_restore", within(MOST_OF_START, clock_restore));
    most(0, other_clock_free);
    show("lapd_card_free", most(0, card_free));
    show("lapd_clock_free", most(0, clock_free));
    for (int is_timed = 0; is_timed < 2; is_timed++)
        frames(is_timed, (const uint8_t *const[]){request, sabme, data}, (const size_t[]){sizeof request, sizeof sabme, sizeof data}, 3);
    show("lapd_card_start_timed", within(MOST_OF_START, timed_start));
    most(0, card_free);
    return failed;
}
