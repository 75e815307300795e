/*
 * wire.c: two cards on one wire, in one process: the network's side and the user's, from point to point, with TEI 0.
 * Each card's frames go to the other at 64 kbit/s, one after the other, and some are lost on their way, by a seed. The
 * user's side establishes the link, contents go both ways as fast as they are accepted, and in the end the user's side
 * releases the link. Each card keeps its timers, by a time of the wire's own.
 *
 *     cc -O2 -I ../../dist -o wire wire.c trace.c ../../dist/lapd.c
 *     wire [--trace] [SEED LOSS COUNT [RECORD]]
 *
 * What each layer 3 is told is compared, octet by octet, with what the other's accepted requests had: it comes in
 * order, and each contents once. None is missing between two that were told, unless the link was established anew
 * meanwhile; and no more are missing than the sender was told to be given up. The program prints what went, and ends
 * with status 0 only if all is so; else with 1, and says what is not. With --trace standard error has a log of the network's
 * card: each frame, note, expiry and state (trace.c).
 *
 * With RECORD, all that happens to either card is written as a script of docs/FORMAT.md, to RECORD.network and
 * RECORD.user: `lapdsim run` plays it, and `tools/ladder` draws it.
 */
#include <errno.h>
#include <inttypes.h>
#include <stdio.h>
#include <stdlib.h>
#include <string.h>

#include "lapd.h"
#include "trace.h"

static const char usage[] = "usage: wire [--trace] [SEED LOSS COUNT [RECORD]]\n"
                            "  --trace a log of the network's card on standard error\n"
                            "  SEED    says which frames are lost, and what contents are: 0 to 2^64 - 1, by default 1\n"
                            "  LOSS    so many of 100 frames are lost: 0 to 50, by default 10\n"
                            "  COUNT   so many contents go each way: 1 to 1000000, by default 5000\n"
                            "  RECORD  what happens is written to RECORD.network and RECORD.user, as scripts\n";

static const lapd_config trunk = LAPD_PRIMARY_RATE;
static const lapd_lengths lengths = LAPD_DEFAULT_LENGTHS;
#define TRUNK_NUMBERS "1 1 7 8 4 4 20 260 3"

/* An end of the wire: a card with one line, its layer 3, and the way of its frames to the other end. */
typedef struct {
    const char *name; /* of its side */
    uint16_t side;
    lapd_card card;
    trace *log;        /* or NULL */
    FILE *record;      /* or NULL */
    uint64_t recorded; /* the moment up to which it is written */

    unsigned ups;      /* how often layer 3 was told that the link is up */
    uint32_t accepted; /* contents of its requests */
    uint32_t kept;     /* of these, those that are neither acknowledged nor given up */
    uint32_t given_up; /* and those that are, as a note told */
    uint32_t next;     /* the number of the contents that it is to be told next */
    uint32_t missing;  /* contents that it was not told, and never will be */
    bool is_anew;      /* the link was established anew since the latest contents were told */

    uint8_t frame[LAPD_MOST_FRAME]; /* on its way, if one is */
    size_t length;
    bool is_on_its_way;
    uint64_t arrives;
    uint64_t frames, lost, expired; /* frames that it gave, those that were lost, and timers that expired */
} wire_end;

static wire_end network = {.name = "network", .side = LAPD_NETWORK};
static wire_end user = {.name = "user", .side = LAPD_USER};
static trace log_of_network = {.to = NULL, .side = LAPD_NETWORK};
static uint64_t seed = 1, loss = 10, count = 5000;
static uint64_t chance; /* the generator that says which frames are lost */
static uint64_t now;    /* in milliseconds */

static wire_end *other_than(const wire_end *end) {
    return end == &user ? &network : &user;
}

/* Says what is not as promised, and ends the program. */
static void fail(const wire_end *end, const char *why) {
    fprintf(stderr, "wire: %s, at %" PRIu64 " ms: %s\n", end->name, now, why);
    exit(1);
}

static void want_ok(const wire_end *end, uint32_t status) {
    if (status != LAPD_OK)
        fail(end, lapd_status_text(status));
}

/* ---- What is random --------------------------------------------------------------------------------------------- */

/* The next number of a generator (splitmix64), the same on every machine. */
static uint64_t next_number(uint64_t *state) {
    uint64_t it = *state += 0x9E3779B97F4A7C15;
    it = (it ^ it >> 30) * 0xBF58476D1CE4E5B9;
    it = (it ^ it >> 27) * 0x94D049BB133111EB;
    return it ^ it >> 31;
}

/* The contents of this number that an end hands over: the number, in four octets, then others. Returns how many. */
static size_t contents_of(const wire_end *end, uint32_t number, uint8_t *octets) {
    uint64_t state = seed ^ ((uint64_t)number << 1 | end->side) << 24;
    size_t length = 4 + next_number(&state) % (LAPD_MOST_OCTETS - 3);
    for (size_t i = 0; i < length; i++)
        octets[i] = (uint8_t)(i < 4 ? number >> (24 - 8 * i) : next_number(&state));
    return length;
}

/* ---- The record ------------------------------------------------------------------------------------------------- */

/* Writes a line of the script of an end: words, and octets after them. */
static void record(wire_end *end, const char *words, const uint8_t *octets, size_t length) {
    if (end->record == NULL)
        return;
    if (now > end->recorded)
        fprintf(end->record, "wait %" PRIu64 "\n", now - end->recorded);
    end->recorded = now;
    fputs(words, end->record);
    for (size_t i = 0; i < length; i++)
        fprintf(end->record, "%02X", octets[i]);
    fputc('\n', end->record);
}

static FILE *record_to(const char *path, const wire_end *end) {
    char name[4096];
    FILE *file = NULL;
    if (snprintf(name, sizeof name, "%s.%s", path, end->name) < (int)sizeof name)
        file = fopen(name, "w");
    if (file == NULL)
        fail(end, "its record cannot be written");
    fprintf(file, "frames " TRUNK_NUMBERS "%s annex-b\n", end->side == LAPD_USER ? " user" : "");
    return file;
}

/* ---- Layer 3 ---------------------------------------------------------------------------------------------------- */

/* Contents came: they are to be the next that the other end handed over. */
static void contents_came(wire_end *end, const uint8_t *octets, size_t length) {
    uint8_t wanted[LAPD_MOST_OCTETS];
    uint32_t number = 0;
    for (size_t i = 0; i < 4 && i < length; i++)
        number = number << 8 | octets[i];
    if (number >= other_than(end)->accepted || length != contents_of(other_than(end), number, wanted)
        || memcmp(octets, wanted, length) != 0)
        fail(end, "told contents that the other end did not hand over");
    if (number < end->next)
        fail(end, "told contents twice, or out of order");
    if (number > end->next && !end->is_anew)
        fail(end, "not told contents of an establishment that goes on");
    end->missing += number - end->next;
    end->next = number + 1;
    end->is_anew = false;
}

/* An error came. Where frames are lost, and no more than that, it is one of four. F: the other end establishes the
 * link anew. I: this end does, as its enquiries were not answered. G, H: its establishment, or release, was not. */
static void error_came(wire_end *end, uint8_t letter) {
    if (letter < 'F' || letter > 'I')
        fail(end, "told an error that no loss explains");
    end->is_anew |= letter == 'F' || letter == 'I';
}

/* The link came up, or went down: what is kept is given up. */
static void link_changed(wire_end *end, bool is_up) {
    end->ups += is_up;
    end->is_anew = true;
    end->given_up += end->kept;
}

static void note_came(wire_end *end, const lapd_note *note, const lapd_report *report) {
    switch (note->note) {
    case LAPD_DATA_INDICATION: contents_came(end, report->contents, report->length); break;
    case LAPD_ERROR_INDICATION: error_came(end, note->error); break;
    case LAPD_ESTABLISH_INDICATION:
    case LAPD_ESTABLISH_CONFIRM: link_changed(end, true); break;
    case LAPD_RELEASE_INDICATION:
    case LAPD_RELEASE_CONFIRM: link_changed(end, false); break;
    default: fail(end, lapd_note_text(note));
    }
}

/* The state of the link, by its number in Q.921: 4, not established; 5 and 6, to be and to end; 7 and 8, established. */
static uint8_t state_of(wire_end *end) {
    uint8_t state = 0;
    want_ok(end, lapd_state(&end->card, 0, LAPD_CALL, 0, &state));
    return state;
}

/* What an event of an end led to. A frame is dropped only while the link is not up. */
static void tell(wire_end *end, const lapd_report *report) {
    struct lapd_room room;
    if (end->log != NULL)
        trace_report(end->log, now, &end->card, report);
    if (report->cause != 0 && (report->cause != LAPD_UNSERVED || state_of(end) >= 7))
        fail(end, lapd_cause_text(report->cause));
    if (report->lost != 0)
        fail(end, "a frame found no room to wait");
    for (int i = 0; i < report->note_count; i++)
        note_came(end, &report->notes[i], report);
    want_ok(end, lapd_room(&end->card, 0, LAPD_CALL, 0, &room));
    end->kept = (uint32_t)(trunk.queue - room.queue);
}

/* Whether all contents were handed over, and none is kept. */
static bool is_done(void) {
    return network.accepted == count && user.accepted == count && network.kept == 0 && user.kept == 0;
}

/* Hands contents over until they are refused, as the link is not up or its queue is full. */
static void send_contents(wire_end *end) {
    static lapd_report report;
    static uint8_t octets[LAPD_MOST_OCTETS];
    while (end->accepted < count) {
        size_t length = contents_of(end, end->accepted, octets);
        uint32_t status = lapd_data(&end->card, 0, LAPD_CALL, 0, octets, length, &report);
        if (status == LAPD_REFUSED_WRONG_STATE || status == LAPD_REFUSED_QUEUE_FULL)
            return;
        want_ok(end, status);
        record(end, "data 0 0 ", octets, length);
        end->accepted++;
        tell(end, &report);
    }
}

/* The user's side establishes the link until all is done, and then releases it. */
static void keep_up(wire_end *end) {
    static lapd_report report;
    uint8_t state = state_of(end);
    if (is_done() && state >= 7) {
        want_ok(end, lapd_release(&end->card, 0, LAPD_CALL, 0, &report));
        record(end, "release 0 0", NULL, 0);
        tell(end, &report);
    } else if (!is_done() && state == 4) {
        want_ok(end, lapd_establish(&end->card, 0, LAPD_CALL, 0, &report));
        record(end, "establish 0 0", NULL, 0);
        tell(end, &report);
    }
}

/* ---- The wire --------------------------------------------------------------------------------------------------- */

static void start(wire_end *end) {
    static lapd_report report;
    lapd_config config = trunk;
    config.side = end->side;
    want_ok(end, lapd_card_start_frames_timed(&end->card, &config, &lengths));
    want_ok(end, lapd_assign(&end->card, 0, 0, &report)); /* the TEI of a line from point to point */
    record(end, "assign 0 0", NULL, 0);
    tell(end, &report);
}

/* A timer of an end expired. */
static void expired(wire_end *end, const lapd_report *report) {
    if (end->log != NULL)
        trace_expiry(end->log, now, report);
    tell(end, report);
    end->expired++;
}

/* It is now this moment: timers that are due expire. */
static void expire(wire_end *end) {
    static lapd_report report;
    uint32_t status;
    while ((status = lapd_fall_due(&end->card, now, &report)) == LAPD_OK)
        expired(end, &report);
    want_ok(end, status == LAPD_NO_TIMER ? LAPD_OK : status);
}

/* A frame of an end arrives at the other, or is lost. */
static void arrive(wire_end *end) {
    static lapd_report report;
    wire_end *other = other_than(end);
    if (!end->is_on_its_way || end->arrives > now)
        return;
    end->is_on_its_way = false;
    if (next_number(&chance) % 100 < loss) {
        end->lost++;
        return;
    }
    if (other->log != NULL)
        trace_frame(other->log, now, 0, false, end->frame, end->length, end->length);
    bool is_done = false;
    while (want_ok(other, lapd_frame_at(&other->card, now, 0, end->frame, end->length, &is_done, &report)), !is_done)
        expired(other, &report);
    record(other, "in 0 ", end->frame, end->length);
    tell(other, &report);
}

/* An end gives its next frame, if its way is free and a frame waits: at 64 kbit/s eight octets take a millisecond. */
static void give(wire_end *end) {
    static lapd_report report;
    if (end->is_on_its_way)
        return;
    uint32_t status;
    while ((status = lapd_next_frame_at(&end->card, now, 0, end->frame, sizeof end->frame, &end->length, &report)) == LAPD_OK
           && end->length == 0)
        expired(end, &report);
    if (status == LAPD_NO_FRAME)
        return;
    want_ok(end, status);
    record(end, "next 0", NULL, 0);
    if (end->log != NULL)
        trace_frame(end->log, now, 0, true, end->frame, end->length, end->length);
    tell(end, &report);
    end->is_on_its_way = true;
    end->arrives = now + 1 + (end->length + 4) / 8; /* with its check, and flags */
    end->frames++;
}

/* The next moment at which something happens at an end; the moment itself, if that is sooner. */
static uint64_t sooner(wire_end *end, uint64_t moment) {
    uint64_t due;
    if (end->is_on_its_way && end->arrives < moment)
        moment = end->arrives;
    return lapd_next_moment(&end->card, &due) == LAPD_OK && due < moment ? due : moment;
}

/* All that happens at this moment. */
static void turn(void) {
    expire(&network);
    expire(&user);
    arrive(&network);
    arrive(&user);
    keep_up(&user);
    send_contents(&network);
    send_contents(&user);
    give(&network);
    give(&user);
}

/* Whether all is done, the link is released, and no frame is on its way. */
static bool is_over(void) {
    bool is_empty = !network.is_on_its_way && !user.is_on_its_way;
    return is_done() && is_empty && state_of(&network) == 4 && state_of(&user) == 4;
}

/* Turns until all is over. */
static void run(void) {
    uint64_t end_of_time = 60000 * (count + 60); /* a minute for each contents, and an hour, is too much */
    start(&network);
    start(&user);
    for (turn(); !is_over(); turn()) {
        now = sooner(&network, sooner(&user, end_of_time));
        if (now == end_of_time)
            fail(&user, "nothing happens any more, or it has no end");
    }
}

/* What is to be so in the end, and what went. */
static void sum_up(wire_end *end) {
    uint32_t stored;
    const wire_end *other = other_than(end);
    end->missing += other->accepted - end->next;
    if (end->next < other->accepted && !end->is_anew)
        fail(end, "not told the last contents");
    if (end->missing > other->given_up)
        fail(end, "not told contents that the other end was not told to be given up");
    want_ok(end, lapd_stored(&end->card, &stored));
    if (stored != 0)
        fail(end, "octets stay stored");
    printf("%s: told %" PRIu32 " of %" PRIu32 " contents, each once and in order; %" PRIu32 " of its own given up\n",
           end->name, other->accepted - end->missing, other->accepted, end->given_up);
    printf("%s: up %u times; gave %" PRIu64 " frames, %" PRIu64 " were lost; %" PRIu64 " timers expired\n",
           end->name, end->ups, end->frames, end->lost, end->expired);
}

static void finish(wire_end *end) {
    if (end->record != NULL && fclose(end->record) != 0)
        fail(end, "its record cannot be written");
    (void)!lapd_card_free(&end->card);
}

/* ---- Words ------------------------------------------------------------------------------------------------------ */

/* A number of the command line, in its range. */
static uint64_t number_of(const char *name, const char *word, uint64_t least, uint64_t most) {
    char *rest;
    errno = 0;
    unsigned long long number = strtoull(word, &rest, 10);
    if (word[0] < '0' || word[0] > '9' || *rest != '\0' || errno != 0 || number < least || number > most) {
        fprintf(stderr, "wire: %s is no number from %" PRIu64 " to %" PRIu64 ": %s\n", name, least, most, word);
        fputs(usage, stderr);
        exit(2);
    }
    return number;
}

static void read_words(int words, char **argv) {
    if (words == 2 && strcmp(argv[1], "--help") == 0) {
        fputs(usage, stdout);
        exit(0);
    }
    if (words > 1 && strcmp(argv[1], "--trace") == 0) {
        network.log = &log_of_network;
        network.log->to = stderr;
        words--;
        argv++;
    }
    if (words != 1 && words != 4 && words != 5) {
        fprintf(stderr, "wire: three words or four\n%s", usage);
        exit(2);
    }
    if (words == 1)
        return;
    seed = number_of("SEED", argv[1], 0, UINT64_MAX);
    loss = number_of("LOSS", argv[2], 0, 50);
    count = number_of("COUNT", argv[3], 1, 1000000);
    network.record = words == 5 ? record_to(argv[4], &network) : NULL;
    user.record = words == 5 ? record_to(argv[4], &user) : NULL;
}

int main(int words, char **argv) {
    read_words(words, argv);
    chance = seed;
    run();
    printf("seed %" PRIu64 ", %" PRIu64 " of 100 frames lost, %" PRIu64 " contents each way: %" PRIu64 " ms\n",
           seed, loss, count, now);
    sum_up(&network);
    sum_up(&user);
    finish(&network);
    finish(&user);
    return 0;
}
