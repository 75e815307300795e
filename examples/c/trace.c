/* trace.c: a log of what happens at a card, in words. See trace.h. */
#include "trace.h"

static void begin(const trace *log, uint64_t milliseconds, uint32_t line, const char *mark) {
    fprintf(log->to, "%llu.%03u %u %s ", (unsigned long long)(milliseconds / 1000), (unsigned)(milliseconds % 1000),
            (unsigned)line, mark);
}

void trace_frame(trace *log, uint64_t milliseconds, uint32_t line, bool is_sent, const uint8_t *octets, size_t known,
                 size_t length) {
    char text[LAPD_MOST_TEXT];
    uint16_t other = log->side == LAPD_NETWORK ? LAPD_USER : LAPD_NETWORK;
    begin(log, milliseconds, line, is_sent ? ">" : "<");
    if (lapd_frame_text(octets, known, is_sent ? log->side : other, text, sizeof text) != LAPD_OK)
        fprintf(log->to, "%zu octets\n", length);
    else if (known == length)
        fprintf(log->to, "%s\n", text);
    else
        fprintf(log->to, "%s of %zu octets\n", text, length);
}

/* A frame of a card of octets: whole, if the card still has it, or else how it begins. */
static void trace_known(trace *log, uint64_t milliseconds, lapd_card *card, uint32_t line, bool is_sent, const lapd_head *head) {
    uint8_t octets[LAPD_MOST_FRAME];
    size_t known = head->length < sizeof head->octets ? head->length : sizeof head->octets;
    uint32_t status = is_sent ? lapd_begun_frame(card, line, octets, sizeof octets, &known)
                              : lapd_heard_frame(card, line, octets, sizeof octets, &known);
    trace_frame(log, milliseconds, line, is_sent, status == LAPD_OK ? octets : head->octets, known, head->length);
}

/* How many frames a line has heard so far. */
static uint64_t heard_at(lapd_card *card, uint32_t line) {
    struct lapd_counters counters;
    if (lapd_counters(card, line, &counters) != LAPD_OK)
        return 0;
    uint64_t heard = counters.values[LAPD_HEARD_OVERLONG];
    for (unsigned kind = LAPD_HEARD_I; kind <= LAPD_HEARD_UNDEFINED; kind++)
        heard += counters.values[kind];
    return heard;
}

void trace_heads(trace *log, uint64_t milliseconds, lapd_card *card, const lapd_report *report) {
    lapd_head head;
    uint32_t line = report->line;
    uint64_t heard = heard_at(card, line);
    if (heard != log->heard[line] && lapd_heard(card, line, &head) == LAPD_OK)
        trace_known(log, milliseconds, card, line, false, &head);
    if (report->begun != 0 && lapd_begun(card, line, &head) == LAPD_OK)
        trace_known(log, milliseconds, card, line, true, &head);
    log->heard[line] = heard;
}

/* What follows a word about a packet link: -16, or another SAPI. Of call control nothing does. */
static const char *ending_of(const trace *log, uint8_t service, char *room) {
    if (service != LAPD_PACKET)
        return "";
    if (log->sapi == 0 || log->sapi == 16)
        return "-16";
    sprintf(room, " sapi %u", log->sapi % 100u);
    return room;
}

/* What became of a timer, which is named as in an order of lapdsim, by its link. */
static void trace_timer(const trace *log, const char *what, const lapd_timer *timer) {
    static const char *const names[] = {"none", "t200", "t203", "t201", "t202"};
    char room[10];
    fprintf(log->to, "%s %s", what, names[timer->timer % 5]);
    if (timer->timer == LAPD_T200 || timer->timer == LAPD_T203)
        fprintf(log->to, "%s %u", ending_of(log, timer->service, room), timer->tei);
    fputc('\n', log->to);
}

void trace_expiry(trace *log, uint64_t milliseconds, const lapd_report *report) {
    begin(log, milliseconds, report->line, " ");
    trace_timer(log, "expired", &report->expired);
}

static void trace_note(const trace *log, const lapd_note *note, const lapd_report *report) {
    char room[32];
    lapd_config config = LAPD_BASIC_ACCESS;
    const char *text = lapd_note_text(note);
    config.sapi = log->sapi;
    if (log->sapi != 0 && log->sapi != 16 && lapd_note_text_of(note, &config, room, sizeof room) == LAPD_OK)
        text = room;
    fprintf(log->to, "%s %u", text, note->tei);
    if (note->error != 0)
        fprintf(log->to, " %c", note->error);
    if (note->note == LAPD_DATA_INDICATION || note->note == LAPD_UNIT_INDICATION)
        fprintf(log->to, ", %u octets", report->length);
    fputc('\n', log->to);
}

/* The states of Q.921, by their numbers. */
static const char *state_text(uint8_t state) {
    static const char *const names[] = {"no TEI", "", "", "", "TEI assigned", "awaiting establishment",
                                        "awaiting release", "multiple frame established", "timer recovery"};
    return state < sizeof names / sizeof *names ? names[state] : "";
}

/* A link that is in another state than before. */
static void trace_state(trace *log, uint64_t milliseconds, uint32_t line, unsigned place, uint8_t state) {
    uint8_t before = log->states[line][place];
    if (before == state)
        return;
    char room[10];
    uint8_t service = place % 2 == 0 ? LAPD_CALL : LAPD_PACKET;
    begin(log, milliseconds, line, " ");
    fprintf(log->to, "state%s %u: %u (%s) to %u (%s)\n", ending_of(log, service, room), place / 2, before,
            state_text(before), state, state_text(state));
    log->states[line][place] = state;
}

static void trace_states(trace *log, uint64_t milliseconds, uint32_t line, lapd_card *card) {
    uint8_t states[TRACE_PLACES] = {0}, place = 0;
    for (lapd_link link; lapd_next_link(card, line, &place, &link) == LAPD_OK;)
        states[place - 1] = link.state;
    for (unsigned i = 0; i < TRACE_PLACES; i++)
        trace_state(log, milliseconds, line, i, states[i]);
}

void trace_report(trace *log, uint64_t milliseconds, lapd_card *card, const lapd_report *report) {
    uint32_t line = report->line;
    for (unsigned i = 0; i < report->note_count; i++) {
        begin(log, milliseconds, line, " ");
        trace_note(log, &report->notes[i], report);
    }
    if (report->cause != 0) {
        begin(log, milliseconds, line, " ");
        fprintf(log->to, "dropped %s\n", lapd_cause_text(report->cause));
    }
    if (report->lost != 0) {
        begin(log, milliseconds, line, " ");
        fprintf(log->to, "lost %u\n", report->lost);
    }
    if (report->given_up != 0 || report->given_up_16 != 0) {
        begin(log, milliseconds, line, " ");
        fprintf(log->to, "given up of TEI %u: %u, of the second service %u\n", report->given_up_tei, report->given_up,
                report->given_up_16);
    }
    for (unsigned i = 0; i < report->order_count; i++) {
        begin(log, milliseconds, line, " ");
        trace_timer(log, report->orders[i].order == LAPD_START ? "start" : "stop", &report->orders[i].timer);
    }
    trace_states(log, milliseconds, line, card);
}
