/* A card that obeys the lines of a script: see station.h. */
#include "station.h"

#include <stdlib.h>
#include <string.h>

static const char *playing = ""; /* the script's name */

static void put_octets(const station *b, const uint8_t *octets, size_t length) {
    for (size_t i = 0; i < length; i++)
        fprintf(b->to, "%02X", octets[i]);
    fputs(length == 0 ? "-\n" : "\n", b->to);
}

static void put_note(const station *b, uint32_t line, const lapd_note *note, const lapd_report *report) {
    fprintf(b->to, "%u %s %u", line, lapd_note_text(note), note->tei);
    if (note->note == LAPD_DATA_INDICATION || note->note == LAPD_UNIT_INDICATION) {
        fputc(' ', b->to);
        put_octets(b, report->contents, report->length);
    } else if (note->note == LAPD_ERROR_INDICATION) {
        fprintf(b->to, " %c\n", note->error);
    } else {
        fputc('\n', b->to);
    }
}

/* A call that can't fail here did: the library is wrong, or this program. */
static void want_ok(uint32_t status, const char *call) {
    if (status == LAPD_OK)
        return;
    fprintf(stderr, "station: %s: %s: %s\n", playing, call, lapd_status_text(status));
    exit(3);
}

/* Writes what a TEI's links gave up. */
static void tell_losses(const station *b, uint32_t line, const lapd_report *report) {
    if (b->losses && report->given_up != 0)
        fprintf(b->to, "%u given-up %u %u\n", line, report->given_up_tei, report->given_up);
    if (b->losses && report->given_up_16 != 0)
        fprintf(b->to, "%u given-up-16 %u %u\n", line, report->given_up_tei, report->given_up_16);
}

/* Writes what an event told, and hands its orders to the clock. */
static void tell(station *b, uint32_t line, const lapd_report *report) {
    for (int i = 0; i < report->note_count; i++)
        put_note(b, line, &report->notes[i], report);
    if (report->cause != 0)
        fprintf(b->to, "%u dropped %s\n", line, lapd_cause_text(report->cause));
    if (report->lost != 0)
        fprintf(b->to, "%u lost %u\n", line, report->lost);
    tell_losses(b, line, report);
    if (b->is_timed)
        want_ok(report->order_count == 0 ? LAPD_OK : LAPD_WRONG_ORDER, "orders of a card with timers of its own");
    else
        want_ok(lapd_clock_apply_report(&b->clock, line, report, b->now), "orders of the card");
}

static uint32_t start_card(station *b, const lapd_config *config) {
    static const lapd_lengths lengths = {.t200 = 1000, .t203 = 10000, .t201 = 1000, .t202 = 2000};
    if (b->is_timed)
        return b->for_frames ? lapd_card_start_frames_timed(&b->card, config, &lengths)
                             : lapd_card_start_timed(&b->card, config, &lengths);
    uint32_t status = b->for_frames ? lapd_card_start_frames(&b->card, config) : lapd_card_start(&b->card, config);
    return status == LAPD_OK ? lapd_clock_start(&b->clock, config) : status;
}

static fault start(station *b, const command *c) {
    b->for_frames = c->for_frames;
    uint32_t status = start_card(b, &c->config);
    if (status >= LAPD_BAD_LINES)
        return BAD_CARD;
    if (status == LAPD_NO_MEMORY)
        return NO_MEMORY;
    want_ok(status, "start");
    for (uint32_t line = 0; line < c->config.lines; line++) {
        hdlc_begin(&b->senders[line]);
        hdlc_listen(&b->listeners[line]);
    }
    return NO_FAULT;
}

static void receive(station *b, uint32_t line, uint8_t octet) {
    static lapd_report report;
    want_ok(lapd_octet(&b->card, line, octet, &report), "octet");
    tell(b, line, &report);
}

/* The terminal's frame, up to and with the last bit of its closing flag. */
static void send(station *b, uint32_t line, const command *c) {
    hdlc_sender *sender = &b->senders[line];
    while (hdlc_busy(sender))
        receive(b, line, hdlc_octet(sender));
    hdlc_load(sender, c->octets, c->length);
    for (size_t left = hdlc_left(sender), given = 0; given < left; given += 8)
        receive(b, line, hdlc_octet(sender));
}

/* Writes what a line gave, and the frames that it ended. */
static void put_given(station *b, uint32_t line, const uint8_t *octets, size_t count) {
    fprintf(b->to, "%u tx ", line);
    put_octets(b, octets, count);
    hdlc_listener *listener = &b->listeners[line];
    for (size_t i = 0; i < count; i++)
        if (hdlc_hear(listener, octets[i])) {
            fprintf(b->to, "%u frame ", line);
            put_octets(b, listener->frame, listener->length);
        }
}

static void pull(station *b, uint32_t line, uint32_t count) {
    static lapd_report report;
    static uint8_t octets[4096];
    for (uint32_t i = 0; i < count; i++) {
        const uint8_t none = 0;
        size_t steps = 1;
        if (b->by_exchange)
            want_ok(lapd_exchange(&b->card, line, &none, 1, &octets[i], 1, &steps, &report), "exchange");
        else
            want_ok(lapd_pull(&b->card, line, &octets[i], &report), "pull");
        tell(b, line, &report);
    }
    put_given(b, line, octets, count);
}

/* ---- A card of frames ---------------------------------------------------------------------------------------------- */

static void take_frame(station *b, uint32_t line, const command *c) {
    static lapd_report report;
    if (c->verb == FAILED)
        want_ok(lapd_frame_failed(&b->card, line, c->cause, &report), "frame failed");
    else
        want_ok(lapd_frame(&b->card, line, c->octets, c->length, &report), "frame");
    tell(b, line, &report);
}

static bool is_waiting(station *b, uint32_t line) {
    uint32_t first;
    uint32_t status = lapd_next_waiting(&b->card, line, &first);
    if (status != LAPD_NO_FRAME)
        want_ok(status, "the next line that waits");
    return status == LAPD_OK && first == line;
}

static void give_frame(station *b, uint32_t line) {
    static lapd_report report;
    uint8_t octets[LAPD_MOST_FRAME];
    size_t length;
    bool waits = is_waiting(b, line);
    uint32_t status = lapd_next_frame(&b->card, line, octets, sizeof octets, &length, &report);
    if ((status == LAPD_OK) != waits || (status == LAPD_OK && report.more != is_waiting(b, line)))
        want_ok(LAPD_NO_FRAME, "what waits");
    if (status == LAPD_NO_FRAME) {
        fprintf(b->to, "%u nothing\n", line);
        return;
    }
    want_ok(status, "next frame");
    tell(b, line, &report);
    fprintf(b->to, "%u frame ", line);
    put_octets(b, octets, length);
}

/* Whether a line is about what the other kind of card takes and gives; the library has to say so of its call. */
static bool is_of_other_card(station *b, const command *c) {
    static lapd_report report;
    uint8_t octet[LAPD_MOST_FRAME];
    size_t length;
    uint32_t status = LAPD_OK;
    if (b->for_frames && c->verb == RX)
        status = lapd_octet(&b->card, c->numbers[0], 0x7E, &report);
    else if (b->for_frames && c->verb == PULL)
        status = lapd_pull(&b->card, c->numbers[0], octet, &report);
    else if (!b->for_frames && c->verb == FAILED)
        status = lapd_frame_failed(&b->card, c->numbers[0], c->cause, &report);
    else if (!b->for_frames && c->verb == NEXT)
        status = lapd_next_frame(&b->card, c->numbers[0], octet, sizeof octet, &length, &report);
    else
        return false;
    if (status != LAPD_WRONG_CARD)
        want_ok(status == LAPD_OK ? LAPD_WRONG_CARD : status, "a call of the other card");
    return true;
}

/* ---- Runs of octets taken and given in turn ------------------------------------------------------------------------- */

/* Whether a line goes on with the run that waits, or begins one. */
static bool joins(const station *b, const command *c) {
    const station_run *r = &b->run;
    bool is_whole = r->steps % 2 == 0, is_same = r->steps == 0 || r->line == c->numbers[0];
    if (!b->by_exchange || !is_same)
        return false;
    return is_whole ? c->verb == RX && c->length == 1 && r->steps < 2 * MOST_TURNS
                    : c->verb == PULL && c->numbers[1] == 1;
}

static void join(station *b, const command *c) {
    station_run *r = &b->run;
    r->line = c->numbers[0];
    if (c->verb == RX)
        r->taken[r->steps / 2] = c->octets[0];
    r->steps++;
}

/* Hands the run over. Steps that tell nothing show what they gave alone. */
static void hand_over(station *b) {
    static lapd_report report;
    static uint8_t given[MOST_TURNS];
    const station_run *r = &b->run;
    size_t length = r->steps / 2, steps = 0;
    for (size_t from = 0; from < 2 * length; from = steps) {
        want_ok(lapd_exchange(&b->card, r->line, r->taken, length, given, length, &steps, &report), "exchange");
        if (steps <= from || steps > 2 * length)
            want_ok(LAPD_WRONG_LENGTH, "the steps of an exchange");
        for (size_t step = from; step < steps; step++) {
            if (step + 1 == steps)
                tell(b, r->line, &report);
            if (step % 2 == 1)
                put_given(b, r->line, &given[step / 2], 1);
        }
    }
    if (r->steps % 2 == 1)
        receive(b, r->line, r->taken[length]);
    b->run.steps = 0;
}

/* The card's own timers fall due, each at its moment. */
static void fall_due(station *b, uint64_t end) {
    static lapd_report report;
    uint32_t status = LAPD_OK;
    while (status != LAPD_NO_TIMER || b->now < end) {
        uint64_t moment;
        b->now = lapd_next_moment(&b->card, &moment) == LAPD_OK && moment < end ? moment : end;
        status = lapd_fall_due(&b->card, b->now, &report);
        if (status == LAPD_NO_TIMER)
            continue;
        want_ok(status, "fall due");
        tell(b, report.line, &report);
    }
}

static fault wait(station *b, uint32_t ms) {
    static lapd_report report;
    if (b->now > INT64_MAX - (uint64_t)ms)
        return TIME_OVER;
    uint64_t end = b->now + ms, moment;
    if (b->is_timed)
        fall_due(b, end);
    while (!b->is_timed && lapd_clock_next(&b->clock, &moment) == LAPD_OK && moment <= end) {
        lapd_due due;
        b->now = moment;
        want_ok(lapd_clock_due(&b->clock, moment, &due), "due");
        want_ok(lapd_expire(&b->card, due.line, &due.timer, &report), "expire");
        tell(b, due.line, &report);
    }
    b->now = end;
    return NO_FAULT;
}

static void ask(station *b, uint32_t line, const command *c) {
    static lapd_report report;
    uint32_t status = lapd_request(&b->card, line, c->request, c->service, (uint8_t)c->numbers[1], c->octets,
                                   c->length, &report);
    if ((LAPD_REFUSED_BAD_TEI <= status && status <= LAPD_REFUSED_CONTROL_FULL) || status == LAPD_REFUSED_WRONG_SIDE) {
        fprintf(b->to, "%u refused %s\n", line, lapd_status_text(status));
        return;
    }
    want_ok(status, "request");
    tell(b, line, &report);
}

/* The whole line goes down, a link a call. */
static void bring_down(station *b, uint32_t line) {
    static lapd_report report;
    uint8_t place = 0;
    uint32_t status;
    while ((status = lapd_line_down(&b->card, line, &place, &report)) == LAPD_OK)
        tell(b, line, &report);
    if (status != LAPD_NO_MORE_LINKS)
        want_ok(status, "line down");
}

static void show_stored(station *b) {
    uint32_t stored, limit;
    want_ok(lapd_stored(&b->card, &stored), "stored");
    want_ok(lapd_limit(&b->card, &limit), "limit");
    fprintf(b->to, "stored %u limit %u\n", stored, limit);
}

/* Those of the places from one to another. */
static void show_counters(station *b, uint32_t line, unsigned from, unsigned to) {
    struct lapd_counters counters;
    bool any = false;
    want_ok(lapd_counters(&b->card, line, &counters), "counters");
    for (unsigned place = from; place < to; place++)
        if (counters.values[place] > 0) {
            fprintf(b->to, "%u counter %s %llu\n", line, lapd_counter_text(place), (unsigned long long)counters.values[place]);
            any = true;
        }
    if (!any)
        fprintf(b->to, "%u nothing\n", line);
}

/* A line that is about one line of the card, which has it. */
static fault obey_at(station *b, uint32_t line, const command *c) {
    if (joins(b, c)) {
        join(b, c);
        return NO_FAULT;
    }
    hand_over(b);
    if (c->verb == IN && !b->for_frames && (c->length < 3 || c->length > HDLC_MOST_OCTETS))
        return BAD_FRAME;
    if (c->verb == FAILED || (c->verb == IN && b->for_frames))
        take_frame(b, line, c);
    else if (c->verb == IN)
        send(b, line, c);
    else if (c->verb == NEXT)
        give_frame(b, line);
    else if (c->verb == PULL)
        pull(b, line, c->numbers[1]);
    else if (c->verb == REQUEST)
        ask(b, line, c);
    else if (c->verb == DOWN)
        bring_down(b, line);
    else if (c->verb == COUNTERS)
        show_counters(b, line, 0, LAPD_HEARD_REQUEST);
    else if (c->verb == MESSAGES)
        show_counters(b, line, LAPD_HEARD_REQUEST, LAPD_COUNTERS);
    else
        for (size_t i = 0; i < c->length; i++)
            receive(b, line, c->octets[i]);
    return NO_FAULT;
}

/* A line of a script, as it was read. */
static fault obeyed(station *b, const command *c) {
    uint32_t lines;
    if (c->verb == CARD)
        return b->card.started ? SECOND_CARD : start(b, c);
    if (lapd_lines(&b->card, &lines) != LAPD_OK)
        return NO_CARD;
    if (c->verb == WAIT || c->verb == TIMERS || c->verb == STORED || c->verb == LOSSES)
        hand_over(b);
    if (c->verb == WAIT)
        return wait(b, c->numbers[0]);
    if (c->verb == TIMERS) {
        const lapd_lengths of = {c->numbers[0], c->numbers[1], c->numbers[2], c->numbers[3], {0}};
        uint32_t status = b->is_timed ? lapd_card_set_lengths(&b->card, &of)
                                      : lapd_clock_set_lengths(&b->clock, of.t200, of.t203, of.t201, of.t202);
        return status == LAPD_OK ? NO_FAULT : BAD_NUMBER;
    }
    if (c->verb == STORED) {
        show_stored(b);
        return NO_FAULT;
    }
    if (c->verb == LOSSES) {
        b->losses = true;
        return NO_FAULT;
    }
    if (c->verb == SAVE || c->verb == RESTORE) /* what they show and do is asked by tests/image */
        return c->verb == SAVE || b->for_frames ? NO_FAULT : WRONG_CARD;
    if (is_of_other_card(b, c))
        return WRONG_CARD;
    return c->numbers[0] >= lines ? BAD_LINE : obey_at(b, c->numbers[0], c);
}

void station_begin(station *b, FILE *to, const char *name) {
    memset(b, 0, sizeof *b); /* zeroed memory is no card and no clock */
    b->to = to;
    playing = name;
}

fault station_obey(station *b, const char *line, size_t length) {
    static command c;
    if (length > MOST_LINE)
        return TOO_LONG;
    if (length == 0 || line[0] == '#')
        return NO_FAULT;
    fault kind = read_command(line, length, &c);
    return kind == NO_FAULT ? obeyed(b, &c) : kind;
}

void station_end(station *b) {
    hand_over(b);
    (void)!lapd_card_free(&b->card);
    (void)!lapd_clock_free(&b->clock);
}

void station_fault(FILE *to, fault kind, size_t number) {
    if (kind == NO_MEMORY)
        fprintf(to, "%s\n", fault_text(kind));
    else if (kind != NO_FAULT)
        fprintf(to, "line %lu: %s\n", (unsigned long)number, fault_text(kind)); /* small C libraries have no %zu */
}
