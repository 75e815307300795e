/*
 * interop.c: a real terminal against the card. libpri, the ISDN stack of a widespread PBX, is the user side of a basic
 * access line, point to multipoint; the network side is a card through the C library, with a handful of Q.931 messages
 * for layer 3. Octets pass between them in memory, as true HDLC, both at 16 kbit/s of real time or faster.
 *
 * It gets its TEI, comes up, calls, is called, loses frames both ways and recovers, answers an identity check, is released
 * and removed, and comes again. Then the exchange starts anew, twice, and knows no TEI: as docs/EMBEDDING.md has it, all
 * TEIs are disowned, and then that of a frame that is dropped. Each time the terminal asks for another and comes up. Each
 * step is told; status 1 where one did not come in time. For tests alone: see tests/interop.
 */
#define _POSIX_C_SOURCE 200809L

#include <stdio.h>
#include <stdlib.h>
#include <string.h>
#include <time.h>

#include "hdlc.h"
#include "lapd.h"
#include "libpri_terminal.h"
#include "tapped.h"

/* ---- Frames that wait to go from one side to the other ------------------------------------------------------------ */

enum { MOST_FRAMES = 32, TURN_OCTETS = 64 };

typedef struct {
    uint8_t octets[MOST_FRAMES][HDLC_MOST_OCTETS];
    size_t lengths[MOST_FRAMES];
    size_t first, count;
    int lose; /* so many I-frames are lost from now on */
    int lost;
} frames;

static void put_frame(frames *queue, const uint8_t *frame, size_t length) {
    bool is_i_frame = length > 4 && (frame[2] & 1) == 0;
    if (is_i_frame && queue->lose > 0) {
        queue->lose--;
        queue->lost++;
        return;
    }
    if (queue->count == MOST_FRAMES || length > HDLC_MOST_OCTETS) {
        fprintf(stderr, "interop: a frame of %zu octets finds no room\n", length);
        exit(1);
    }
    size_t place = (queue->first + queue->count++) % MOST_FRAMES;
    memcpy(queue->octets[place], frame, length);
    queue->lengths[place] = length;
}

static size_t take_frame(frames *queue, uint8_t *frame) {
    size_t length = queue->lengths[queue->first];
    memcpy(frame, queue->octets[queue->first], length);
    queue->first = (queue->first + 1) % MOST_FRAMES;
    queue->count--;
    return length;
}

static frames from_terminal, to_terminal;

/* ---- The card ----------------------------------------------------------------------------------------------------- */

static lapd_card card = LAPD_CARD_NONE;
static lapd_clock timers = LAPD_CLOCK_NONE;
static uint64_t now;

/* What has been seen so far, on either side. */
static struct {
    unsigned tei, assigned, up, down, errors, calls_out, calls_in, cleared, disowned;
} seen;

static void tell(const lapd_report *report);

static void send_message(const uint8_t *message, size_t length, bool to_all) {
    static lapd_report report;
    uint32_t status = to_all ? lapd_unit(&card, 0, LAPD_CALL, LAPD_GROUP_TEI, message, length, &report)
                             : lapd_data(&card, 0, LAPD_CALL, (uint8_t)seen.tei, message, length, &report);
    if (status != LAPD_OK)
        printf("  refused: %s\n", lapd_status_text(status));
    else
        tell(&report);
}

/* Answers a message of Q.931 (discriminator 8, call reference of one octet). */
static void call_control(const uint8_t *message, size_t length) {
    static const uint8_t channel[] = {0x18, 1, 0x89}; /* channel identification: B1 */
    if (length < 4 || message[0] != 8 || message[1] != 1)
        return;
    uint8_t reference = message[2] ^ 0x80, type = message[3];
    uint8_t answer[16] = {8, 1, reference, 0};
    if (type == 0x05) { /* SETUP: CALL PROCEEDING with a channel, then CONNECT */
        answer[3] = 0x02;
        memcpy(answer + 4, channel, sizeof channel);
        send_message(answer, 4 + sizeof channel, false);
        answer[3] = 0x07;
        send_message(answer, 4, false);
    } else if (type == 0x0F) { /* CONNECT ACKNOWLEDGE */
        seen.calls_out++;
    } else if (type == 0x07) { /* CONNECT, of a call that we offered */
        seen.calls_in++;
        answer[3] = 0x0F;
        send_message(answer, 4, false);
    } else if (type == 0x45) { /* DISCONNECT: RELEASE */
        answer[3] = 0x4D;
        send_message(answer, 4, false);
    } else if (type == 0x4D) { /* RELEASE: RELEASE COMPLETE */
        seen.cleared++;
        answer[3] = 0x5A;
        send_message(answer, 4, false);
    } else if (type == 0x5A) { /* RELEASE COMPLETE */
        seen.cleared++;
    }
}

/* A call that has to succeed. */
static void did(uint32_t status, const char *what) {
    if (status == LAPD_OK)
        return;
    printf("FAILED: %s: %s\n", what, lapd_status_text(status));
    exit(1);
}

static void tell(const lapd_report *report) {
    did(lapd_clock_apply_report(&timers, 0, report, now), "orders");
    for (const lapd_note *note = report->notes; note < report->notes + report->note_count; note++) {
        printf("  %s %u%s%c\n", lapd_note_text(note), note->tei, note->error ? " " : "", note->error ? note->error : ' ');
        if (note->note == LAPD_ASSIGNED) {
            seen.tei = note->tei;
            seen.assigned++;
        }
        seen.up += note->note == LAPD_ESTABLISH_INDICATION || note->note == LAPD_ESTABLISH_CONFIRM;
        seen.down += note->note == LAPD_RELEASE_INDICATION || note->note == LAPD_RELEASE_CONFIRM;
        seen.errors += note->note == LAPD_ERROR_INDICATION;
        if (note->note == LAPD_DATA_INDICATION) {
            uint8_t message[LAPD_MOST_OCTETS];
            memcpy(message, report->contents, report->length);
            call_control(message, report->length);
        }
    }
}

/* The TEI of the frame that was heard last is on no line: its terminal is to give it up. */
static void disown_heard(void) {
    static lapd_report report;
    lapd_head head;
    did(lapd_heard(&card, 0, &head), "what was heard");
    if (head.octets[0] >> 2 == 63 || head.octets[1] >> 1 == LAPD_GROUP_TEI)
        return;
    did(lapd_disown(&card, 0, head.octets[1] >> 1, &report), "a TEI that is disowned");
    seen.disowned++;
}

/* Some octets each way, and the timers that fall due. */
static void turn_card(void) {
    static lapd_report report;
    static hdlc_sender sender;
    static hdlc_listener listener;
    static bool begun;
    if (!begun) {
        hdlc_begin(&sender);
        hdlc_listen(&listener);
        begun = true;
    }
    for (int i = 0; i < TURN_OCTETS; i++) {
        uint8_t frame[HDLC_MOST_OCTETS], octet;
        if (!hdlc_busy(&sender) && from_terminal.count > 0) {
            size_t length = take_frame(&from_terminal, frame);
            hdlc_load(&sender, frame, length);
        }
        did(lapd_octet(&card, 0, hdlc_octet(&sender), &report), "an octet");
        if (report.cause != 0)
            printf("  dropped %s\n", lapd_cause_text(report.cause));
        tell(&report);
        if (report.cause == LAPD_TEI && seen.disowned == 0)
            disown_heard();
        did(lapd_pull(&card, 0, &octet, &report), "a pull");
        tell(&report);
        if (hdlc_hear(&listener, octet)) {
            tapped(monotonic(), true, listener.frame, listener.length);
            put_frame(&to_terminal, listener.frame, listener.length);
        }
    }
    for (lapd_due due; lapd_clock_due(&timers, now, &due) == LAPD_OK;) {
        did(lapd_expire(&card, due.line, &due.timer, &report), "an expiry");
        tell(&report);
    }
}

/* ---- The terminal ------------------------------------------------------------------------------------------------- */

static struct pri *terminal;
static q931_call *call;

/* libpri hands over and takes frames with two octets of room for a check, which it does not look at. */
static int give(struct pri *pri, void *octets, int length) {
    (void)pri;
    tapped(monotonic(), false, octets, (size_t)length - 2);
    put_frame(&from_terminal, octets, (size_t)length - 2);
    return length;
}

static int take(struct pri *pri, void *octets, int room) {
    (void)pri;
    (void)room;
    if (to_terminal.count == 0)
        return 0;
    size_t length = take_frame(&to_terminal, octets);
    memset((uint8_t *)octets + length, 0, 2);
    return (int)length + 2;
}

static void happened(pri_event *event) {
    if (event == NULL)
        return;
    printf("  terminal: %s\n", pri_event2str(event->e));
    if (event->e == PRI_EVENT_RING) {
        call = event->ring.call;
        pri_answer(terminal, call, event->ring.channel, 0);
    } else if (event->e == PRI_EVENT_HANGUP || event->e == PRI_EVENT_HANGUP_REQ) {
        pri_hangup(terminal, event->hangup.call, 16);
    }
}

static void turn_terminal(void) {
    while (to_terminal.count > 0)
        happened(pri_check_event(terminal));
    happened(pri_schedule_run(terminal));
}

/* ---- Steps -------------------------------------------------------------------------------------------------------- */

/* Both go on until the count is what is wanted, or for so long. */
static void step(const char *name, const unsigned *count, unsigned wanted, unsigned ms) {
    static const struct timespec moment = {0, 2000000};
    printf("%s\n", name);
    for (uint64_t end = now + ms; now < end && (count == NULL || *count < wanted); now = monotonic()) {
        turn_card();
        turn_terminal();
        nanosleep(&moment, NULL);
    }
    if (count != NULL && *count < wanted) {
        printf("FAILED: %s\n", name);
        exit(1);
    }
}

static void call_in(uint8_t reference) {
    const uint8_t setup[] = {8, 1, reference, 5, 4, 3, 0x80, 0x90, 0xA3, 0x18, 1, 0x89, 0x70, 5, 0x80, '1', '2', '3', '4', 0xA1};
    send_message(setup, sizeof setup, true);
}

static void disconnect(uint8_t reference) {
    const uint8_t message[] = {8, 1, reference, 0x45, 8, 2, 0x80, 0x90};
    send_message(message, sizeof message, false);
}

static uint8_t state(void) {
    uint8_t answer = 0;
    did(lapd_state(&card, 0, LAPD_CALL, (uint8_t)seen.tei, &answer), "a state");
    return answer;
}

static void want_state(uint8_t wanted) {
    if (state() == wanted)
        return;
    printf("FAILED: the link is in state %u, wanted %u\n", state(), wanted);
    exit(1);
}

static const lapd_config config = {.lines = 1, .terminals = 8, .k = 7, .k16 = 7, .queue = 8, .unit_queue = 4, .control = 4, .slots = 64,
                                   .n201 = 260, .n200 = 3};

/* The exchange starts anew, and knows no TEI. */
static void restart(void) {
    did(lapd_clock_free(&timers), "the end of the clock");
    did(lapd_card_free(&card), "the end of the card");
    did(lapd_card_start(&card, &config), "another card");
    did(lapd_clock_start(&timers, &config), "another clock");
}

int main(void) {
    static lapd_report report;
    setvbuf(stdout, NULL, _IOLBF, 0);
    tapped_begin("terminal", 1);
    if (lapd_card_start(&card, &config) != LAPD_OK || lapd_clock_start(&timers, &config) != LAPD_OK)
        return 1;
    now = monotonic();
    terminal = libpri_terminal(-1, take, give);

    step("the terminal asks for a TEI and gets one", &seen.assigned, 1, 8000);
    call = libpri_calls(terminal);
    step("it calls, and its link comes up", &seen.up, 1, 8000);
    step("its call is connected", &seen.calls_out, 1, 8000);
    want_state(7);
    pri_hangup(terminal, call, 16);
    step("it hangs up", &seen.cleared, 1, 8000);

    from_terminal.lose = to_terminal.lose = 1;
    call = libpri_calls(terminal);
    step("it calls again; a frame is lost each way, and both recover", &seen.calls_out, 2, 15000);
    if (from_terminal.lost != 1 || to_terminal.lost != 1)
        return printf("FAILED: nothing was lost\n"), 1;
    pri_hangup(terminal, call, 16);
    step("it hangs up", &seen.cleared, 2, 8000);

    call_in(5);
    step("it is called, and answers", &seen.calls_in, 1, 8000);
    disconnect(5);
    step("the network hangs up", &seen.cleared, 3, 8000);

    did(lapd_check(&card, 0, (uint8_t)seen.tei, &report), "a check");
    tell(&report);
    step("an identity check, which the terminal answers", NULL, 0, 3000);
    want_state(7);

    did(lapd_release(&card, 0, LAPD_CALL, (uint8_t)seen.tei, &report), "a release");
    tell(&report);
    step("layer 3 releases the link", &seen.down, 1, 8000);
    want_state(4);
    did(lapd_remove(&card, 0, (uint8_t)seen.tei, &report), "a removal");
    tell(&report);
    want_state(0);
    step("its TEI is removed, and it asks for one again", &seen.assigned, 2, 8000);
    step("and comes up again", &seen.up, 2, 8000);

    restart();
    for (int times = 0; times < 2; times++)
        did(lapd_disown(&card, 0, LAPD_GROUP_TEI, &report), "all TEIs are disowned");
    step("the exchange starts anew and disowns all TEIs; the terminal asks for one", &seen.assigned, 3, 2000);
    step("and comes up again", &seen.up, 3, 8000);
    want_state(7);

    restart();
    call = libpri_calls(terminal);
    step("the exchange starts anew; the terminal calls, and its TEI is disowned", &seen.disowned, 1, 2000);
    step("it asks for one", &seen.assigned, 4, 2000);
    step("and comes up again", &seen.up, 4, 8000);
    want_state(7);
    printf("interop: all steps passed, %u errors noted\n", seen.errors);
    did(lapd_clock_free(&timers), "the end of the clock");
    did(lapd_card_free(&card), "the end of the card");
    return 0;
}
