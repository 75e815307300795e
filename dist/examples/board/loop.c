/*
 * loop.c: a line card without an operating system. An interrupt takes frames from a controller, and main serves them by
 * lapd.c, which keeps the timers. The card is of one basic access, on the network's side, with eight slots.
 *
 * Here the controller is a serial line: a frame is its length in two octets, the high one first, and its octets without
 * their check. A real one hands over whole frames, and octet_came becomes its interrupt.
 *
 * Layer 3 of this example sends back what it is told. LAPD_HEAP_OCTETS is the card's memory.
 */
#include "board.h"
#include "lapd.h"

enum { FRAMES = 4 };

/* ---- What the interrupts hand to main ------------------------------------------------------------------------------ */

/* One more octet than the longest frame: so one that is too long shows. */
typedef struct {
    uint8_t octets[LAPD_MOST_FRAME + 1];
    size_t length;
} frame;

/* The interrupt fills frames[last], and main serves frames[first]: one that finds no room is lost, as on a line. */
static frame frames[FRAMES + 1];
static volatile uint8_t first, last;
static volatile uint32_t milliseconds;

void millisecond_passed(void) {
    milliseconds++;
}

static uint8_t after(uint8_t place) {
    return (uint8_t)((place + 1) % (FRAMES + 1));
}

void octet_came(uint8_t octet) {
    static size_t heads, length, taken;
    frame *to = &frames[last];
    if (heads < 2) {
        length = (length << 8 | octet) & 0xFFFF;
        heads++;
        taken = 0;
    } else if (taken++ <= LAPD_MOST_FRAME) {
        to->octets[taken - 1] = octet;
    }
    if (heads < 2 || taken < length)
        return;
    to->length = length <= LAPD_MOST_FRAME ? length : LAPD_MOST_FRAME + 1;
    heads = length = 0;
    if (after(last) != first)
        last = after(last);
}

/* ---- Layer 3 --------------------------------------------------------------------------------------------------------- */

static lapd_card card = LAPD_CARD_NONE;
static lapd_report report;

/* Reads a report, and sends back a message that it has. What is refused then is lost, as the link is down, or its queue full. */
static uint32_t told(uint32_t status) {
    for (int i = 0; status == LAPD_OK && i < report.note_count; i++) {
        const lapd_note *note = &report.notes[i];
        if (note->note != LAPD_DATA_INDICATION)
            continue;
        uint32_t asked = lapd_data(&card, 0, note->service, note->tei, report.contents, report.length, &report);
        return asked <= LAPD_REFUSED_CONTROL_FULL ? LAPD_OK : asked;
    }
    return status;
}

/* ---- The loop -------------------------------------------------------------------------------------------------------- */

static uint64_t now(void) {
    static uint32_t before, rounds; /* of 2^32 milliseconds, 50 days */
    uint32_t moment = milliseconds;
    rounds += moment < before;
    before = moment;
    return (uint64_t)rounds << 32 | moment;
}

/* What is due expires. */
static uint32_t time_is(uint64_t moment) {
    uint32_t status;
    while ((status = told(lapd_fall_due(&card, moment, &report))) == LAPD_OK)
        ;
    return status == LAPD_NO_TIMER ? LAPD_OK : status;
}

static uint32_t send_all(void) {
    static uint8_t octets[LAPD_MOST_FRAME];
    uint32_t line, status = LAPD_OK;
    size_t length;
    while (status == LAPD_OK && lapd_next_waiting(&card, 0, &line) == LAPD_OK) {
        status = told(lapd_next_frame(&card, line, octets, sizeof octets, &length, &report));
        board_octet((uint8_t)(length >> 8));
        board_octet((uint8_t)length);
        for (size_t i = 0; i < length; i++)
            board_octet(octets[i]);
    }
    return status;
}

static uint32_t serve_frames(void) {
    uint32_t status = LAPD_OK;
    for (; status == LAPD_OK && first != last; first = after(first))
        status = told(lapd_frame(&card, 0, frames[first].octets, frames[first].length, &report));
    return status;
}

/* Waits for a frame, or until a timer is due. */
static void wait(void) {
    uint64_t until = UINT64_MAX; /* stays so if no timer runs */
    (void)!lapd_next_moment(&card, &until);
    board_interrupts(false);
    while (first == last && now() < until) {
        board_wait();
        board_interrupts(true); /* it is served */
        board_interrupts(false);
    }
    board_interrupts(true);
}

int main(void) {
    lapd_config config = LAPD_BASIC_ACCESS;
    static const lapd_lengths lengths = LAPD_DEFAULT_LENGTHS;
    config.slots = 8;
    board_begin();
    uint32_t status = lapd_card_start_frames_timed(&card, &config, &lengths);
    while (status == LAPD_OK) {
        status = time_is(now());
        if (status == LAPD_OK)
            status = serve_frames();
        if (status == LAPD_OK)
            status = send_all();
        if (status == LAPD_OK)
            wait();
    }
    return (int)status;
}
