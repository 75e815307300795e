/* linecard.c: what exchange.c, hardware.c and terminal.c do alike. See linecard.h. */
#define _POSIX_C_SOURCE 200809L

#include "linecard.h"

#include <errno.h>
#include <string.h>
#include <time.h>

enum { FIRST_AUTOMATIC_TEI = 64, LONGEST_WAIT = 10000, MOST_RECORDED_WAIT = 3600000 };

const lapd_config linecard_config = LAPD_BASIC_ACCESS;
const lapd_lengths linecard_lengths = LAPD_DEFAULT_LENGTHS;

bool linecard_is_ok(const linecard *own, uint32_t status, const char *call) {
    if (status != LAPD_OK)
        fprintf(stderr, "%s: %s: %s\n", own->program, call, lapd_status_text(status));
    return status == LAPD_OK;
}

void put_octets(FILE *to, const uint8_t *octets, size_t length) {
    for (size_t i = 0; i < length; i++)
        fprintf(to, "%02X", octets[i]);
    fputs(length == 0 ? "-\n" : "\n", to);
}

/* ---- Layer 3 ------------------------------------------------------------------------------------------------------ */

static bool is_of_contents(const lapd_note *note) {
    return note->note == LAPD_DATA_INDICATION || note->note == LAPD_UNIT_INDICATION;
}

/* A link came up or went down, a TEI came or left, or there was an error. */
static void link_changed(const lapd_note *note) {
    fprintf(stderr, "0 %s %u", lapd_note_text(note), note->tei);
    fprintf(stderr, note->error != 0 ? " %c\n" : "\n", note->error);
}

/* Contents came on a link, or unit data to one or to all. */
static void contents_came(const lapd_note *note, const lapd_report *report) {
    fprintf(stderr, "0 %s %u ", lapd_note_text(note), note->tei);
    put_octets(stderr, report->contents, report->length);
}

/* A request was made: what it led to, or that it is refused. */
static bool asked(linecard *own, uint32_t status, const char *name, const lapd_report *report) {
    if ((LAPD_REFUSED_BAD_TEI <= status && status <= LAPD_REFUSED_CONTROL_FULL) || status == LAPD_REFUSED_WRONG_SIDE) {
        fprintf(stderr, "0 refused %s\n", lapd_status_text(status));
        return true;
    }
    return linecard_is_ok(own, status, name) && linecard_tell(own, report);
}

bool linecard_ask(linecard *own, const char *name, uint8_t request, uint8_t tei) {
    lapd_report report; /* layer 3 may ask while it reads another */
    if (own->record != NULL && request == LAPD_ASK_TEI)
        fprintf(own->record, "%s 0\n", name);
    else if (own->record != NULL)
        fprintf(own->record, "%s 0 %u\n", name, tei);
    uint32_t status = lapd_request_with(&own->card, 0, request, LAPD_CALL, tei, NULL, 0, &report);
    return asked(own, status, name, &report);
}

bool linecard_send(linecard *own, const lapd_note *note, const uint8_t *octets, size_t length) {
    static lapd_report report;
    if (own->record != NULL) {
        fprintf(own->record, "%s 0 %u ", note->service == LAPD_PACKET ? "data16" : "data", note->tei);
        put_octets(own->record, octets, length);
    }
    uint32_t status = lapd_data(&own->card, 0, note->service, note->tei, octets, length, &report);
    return asked(own, status, "data", &report);
}

bool linecard_traces(linecard *own, uint16_t side, int *words, char ***word) {
    static trace log;
    if (*words < 2 || strcmp((*word)[1], "--trace") != 0)
        return false;
    log.to = stderr;
    log.side = side;
    own->log = &log;
    --*words;
    ++*word;
    return true;
}

/* What layer management does about an error: where a TEI that was assigned may be doubled or gone, it asks. */
static bool managed(linecard *own, const lapd_note *note) {
    if (note->note != LAPD_ERROR_INDICATION || strchr("CDGH", note->error) == NULL || note->tei < FIRST_AUTOMATIC_TEI)
        return true;
    if (own->side == LAPD_TERMINAL)
        return linecard_ask(own, "verify", LAPD_VERIFY_TEI, note->tei);
    return own->side == LAPD_USER || linecard_ask(own, "check", LAPD_CHECK, note->tei);
}

bool linecard_tell(linecard *own, const lapd_report *report) {
    if (own->log != NULL) {
        trace_heads(own->log, own->now, &own->card, report);
        trace_report(own->log, own->now, &own->card, report);
    }
    const lapd_note *data = NULL;
    for (const lapd_note *note = report->notes; note < report->notes + report->note_count; note++)
        if (is_of_contents(note)) {
            contents_came(note, report);
            data = note->note == LAPD_DATA_INDICATION ? note : data;
        } else {
            link_changed(note);
        }
    if (report->cause != 0)
        fprintf(stderr, "0 dropped %s\n", lapd_cause_text(report->cause));
    if (report->lost != 0)
        fprintf(stderr, "0 lost %u\n", report->lost);
    for (unsigned i = 0; i < report->note_count; i++)
        if (!managed(own, &report->notes[i]))
            return false;
    for (unsigned i = 0; own->changed != NULL && i < report->note_count; i++)
        if (!is_of_contents(&report->notes[i]) && !own->changed(own, &report->notes[i]))
            return false;
    return data == NULL || own->message_came(own, data, report->contents, report->length);
}

/* ---- Time --------------------------------------------------------------------------------------------------------- */

static uint64_t monotonic(void) {
    struct timespec time;
    clock_gettime(CLOCK_MONOTONIC, &time);
    return (uint64_t)time.tv_sec * 1000 + (uint64_t)time.tv_nsec / 1000000;
}

/* It is this moment now, in the record, too: what is asked for at an expiry comes after it there. */
static void go_on_to(linecard *own, uint64_t moment) {
    while (own->now < moment) {
        uint64_t step = moment - own->now < MOST_RECORDED_WAIT ? moment - own->now : MOST_RECORDED_WAIT;
        if (own->record != NULL)
            fprintf(own->record, "wait %llu\n", (unsigned long long)step);
        own->now += step;
    }
}

/* Time goes on to now. */
static bool pass(linecard *own) {
    static lapd_report report;
    uint64_t moment = monotonic() - own->start, next;
    uint32_t status = LAPD_OK;
    while (status != LAPD_NO_TIMER || own->now < moment) {
        go_on_to(own, lapd_next_moment(&own->card, &next) == LAPD_OK && next < moment ? next : moment);
        status = lapd_fall_due(&own->card, own->now, &report);
        if (status == LAPD_OK && own->log != NULL)
            trace_expiry(own->log, own->now, &report);
        if (status != LAPD_NO_TIMER && !(linecard_is_ok(own, status, "time") && linecard_tell(own, &report)))
            return false;
    }
    return true;
}

/* Milliseconds until a timer falls due, for poll, and so many at most. */
static int patience(linecard *own, int most) {
    uint64_t moment, left = LONGEST_WAIT;
    if (lapd_next_moment(&own->card, &moment) == LAPD_OK && moment < own->now + left)
        left = moment <= own->now ? 0 : moment - own->now;
    return most >= 0 && (uint64_t)most < left ? most : (int)left;
}

bool linecard_wait(linecard *own, struct pollfd *line, int most) {
    if (poll(line, line != NULL, patience(own, most)) < 0) {
        if (errno != EINTR) {
            fprintf(stderr, "%s: poll: %s\n", own->program, strerror(errno));
            return false;
        }
        if (line != NULL)
            line->revents = 0;
    }
    return pass(own);
}

bool linecard_begin(linecard *own, uint32_t status) {
    own->start = monotonic();
    return linecard_is_ok(own, status, "card");
}

bool linecard_disown(linecard *own) {
    static lapd_report report;
    for (int times = 0; times < 2; times++) { /* one message may be lost */
        if (own->record != NULL)
            fprintf(own->record, "disown 0 %u\n", LAPD_GROUP_TEI);
        uint32_t status = lapd_disown(&own->card, 0, LAPD_GROUP_TEI, &report);
        if (!linecard_is_ok(own, status, "disown") || !linecard_tell(own, &report))
            return false;
    }
    return true;
}

bool linecard_end(linecard *own) {
    (void)!lapd_card_free(&own->card);
    return linecard_close(own, own->record, "record");
}

/* ---- Files -------------------------------------------------------------------------------------------------------- */

FILE *linecard_open(const linecard *own, const char *path) {
    FILE *file = fopen(path, "wb");
    if (file == NULL)
        fprintf(stderr, "%s: %s: %s\n", own->program, path, strerror(errno));
    return file;
}

bool linecard_close(const linecard *own, FILE *file, const char *name) {
    if (file == NULL)
        return true;
    bool is_written = !ferror(file);
    is_written = fclose(file) == 0 && is_written;
    if (!is_written)
        fprintf(stderr, "%s: the %s is not whole: it could not be written\n", own->program, name);
    return is_written;
}
