/* dchannel.c: what misdn.c and dahdi.c do alike. See dchannel.h. */
#define _POSIX_C_SOURCE 200809L

#include "dchannel.h"

#include <signal.h>
#include <string.h>

#include "pcap.h"
#include "q931.h"

/* ---- The four sides ----------------------------------------------------------------------------------------------- */

typedef struct {
    const char *word;
    bool is_user, is_primary;
} side_word;

static const side_word sides[] = {{"nt", false, false}, {"te", true, false}, {"nt-e1", false, true}, {"te-e1", true, true}};

static uint16_t side_of(const dchannel *own) {
    if (!own->is_user)
        return LAPD_NETWORK;
    return own->is_primary ? LAPD_USER : LAPD_TERMINAL;
}

/* The numbers of a card as a script has them, but for the side. */
static void put_numbers(FILE *to, const lapd_config *config) {
    fprintf(to, "frames %u %u %u %u %u %u %u %u %u %u", config->lines, config->terminals, config->k, config->queue,
            config->unit_queue, config->control, config->slots, config->n201, config->n200, config->k16);
}

/* The card of this side. A terminal has one TEI. */
static lapd_config config_of(const dchannel *own) {
    static const lapd_config basic = LAPD_BASIC_ACCESS, primary = LAPD_PRIMARY_RATE;
    lapd_config config = own->is_primary ? primary : basic;
    config.side = own->card.side;
    if (own->is_user)
        config.terminals = 1;
    return config;
}

/* Two octets of the system's source of random numbers: by them the network tells terminals apart that ask for a TEI. */
static bool is_random(const dchannel *own, uint16_t *seed) {
    FILE *file = fopen("/dev/urandom", "rb");
    bool is_read = file != NULL && fread(seed, sizeof *seed, 1, file) == 1;
    if (file != NULL)
        fclose(file);
    if (!is_read)
        fprintf(stderr, "%s: there is no /dev/urandom\n", own->card.program);
    return is_read;
}

/* ---- Layer 3 ------------------------------------------------------------------------------------------------------ */

/* The dchannel of which this is the card. */
static dchannel *dchannel_of(linecard *card) {
    return (dchannel *)((char *)card - offsetof(dchannel, card));
}

/* A message of Q.931 is answered as q931.h has it; another one goes back. */
static bool message_came(linecard *card, const lapd_note *note, const uint8_t *contents, size_t length) {
    uint8_t answer[Q931_MOST_ANSWER];
    if (length == 0 || contents[0] != Q931_PROTOCOL)
        return linecard_send(card, note, contents, length);
    size_t octets = q931_answer(contents, length, answer);
    return octets == 0 || linecard_send(card, note, answer, octets);
}

/* A terminal that has a TEI establishes its link; one that has none asks for one, while layer 1 is there. */
static bool changed(linecard *card, const lapd_note *note) {
    dchannel *own = dchannel_of(card);
    switch (note->note) {
    case LAPD_ASSIGNED: return !own->is_user || linecard_ask(card, "establish", LAPD_ESTABLISH, note->tei);
    case LAPD_REMOVED:
    case LAPD_UNASSIGNED:
        return !own->is_user || !own->is_up || linecard_ask(card, "ask", LAPD_ASK_TEI, LAPD_GROUP_TEI);
    default: return true;
    }
}

/* ---- Layer 1 is there, or not ------------------------------------------------------------------------------------- */

bool dchannel_up(dchannel *own) {
    uint8_t place = 0;
    bool has_tei = false, good = true;
    if (own->is_up)
        return true;
    own->is_up = true;
    fprintf(stderr, "0 layer 1 is there\n");
    for (lapd_link link; good && lapd_next_link(&own->card.card, 0, &place, &link) == LAPD_OK;) {
        has_tei = true;
        if (link.service == LAPD_CALL && link.state == 4 && (own->is_user || own->was_up[link.tei]))
            good = linecard_ask(&own->card, "establish", LAPD_ESTABLISH, link.tei);
    }
    memset(own->was_up, 0, sizeof own->was_up);
    if (good && own->is_user && !has_tei)
        good = linecard_ask(&own->card, "ask", LAPD_ASK_TEI, LAPD_GROUP_TEI);
    return good;
}

/* Which links were up, or were to come up, is noted first. */
static void note_links(dchannel *own) {
    uint8_t place = 0;
    for (lapd_link link; lapd_next_link(&own->card.card, 0, &place, &link) == LAPD_OK;)
        if (link.service == LAPD_CALL)
            own->was_up[link.tei] = link.state == 5 || link.state >= 7;
}

bool dchannel_down(dchannel *own) {
    static lapd_report report;
    uint8_t place = 0;
    if (!own->is_up)
        return true;
    own->is_up = false;
    fprintf(stderr, "0 layer 1 is lost\n");
    note_links(own);
    if (own->card.record != NULL)
        fprintf(own->card.record, "down 0\n");
    while (lapd_line_down(&own->card.card, 0, &place, &report) == LAPD_OK)
        if (!linecard_tell(&own->card, &report))
            return false;
    return true;
}

/* ---- Frames ------------------------------------------------------------------------------------------------------- */

/* A frame comes or goes: for the log and the capture. */
static void show(dchannel *own, bool is_sent, const uint8_t *frame, size_t length) {
    if (own->capture != NULL)
        pcap_frame(own->capture, own->card.now, is_sent, own->is_user ? LAPD_USER : LAPD_NETWORK, frame, length, length);
    if (own->card.log != NULL)
        trace_frame(own->card.log, own->card.now, 0, is_sent, frame, length, length);
}

bool dchannel_frame(dchannel *own, const uint8_t *frame, size_t length) {
    static lapd_report report;
    if (own->card.record != NULL) {
        fprintf(own->card.record, "in 0 ");
        put_octets(own->card.record, frame, length);
    }
    show(own, false, frame, length);
    for (bool is_done = false; !is_done;) {
        uint32_t status = lapd_frame_at(&own->card.card, own->card.now, 0, frame, length, &is_done, &report);
        if (!linecard_is_ok(&own->card, status, "frame") || !linecard_tell(&own->card, &report))
            return false;
    }
    return true;
}

bool dchannel_failed(dchannel *own, uint8_t cause) {
    static lapd_report report;
    if (own->card.record != NULL)
        fprintf(own->card.record, "failed 0 %s\n", lapd_cause_text(cause));
    uint32_t status = lapd_frame_failed(&own->card.card, 0, cause, &report);
    return linecard_is_ok(&own->card, status, "failed") && linecard_tell(&own->card, &report);
}

bool dchannel_next(dchannel *own, uint8_t frame[LAPD_MOST_FRAME], size_t *length) {
    static lapd_report report;
    *length = 0;
    for (uint32_t line; own->is_up && *length == 0 && lapd_next_waiting(&own->card.card, 0, &line) == LAPD_OK;) {
        uint32_t status = lapd_next_frame_at(&own->card.card, own->card.now, line, frame, LAPD_MOST_FRAME, length, &report);
        if (!linecard_is_ok(&own->card, status, "next frame"))
            return false;
        if (*length > 0 && own->card.record != NULL)
            fprintf(own->card.record, "next 0\n");
        if (*length > 0)
            show(own, true, frame, *length);
        if (!linecard_tell(&own->card, &report))
            return false;
    }
    return true;
}

/* ---- Its start and its end ---------------------------------------------------------------------------------------- */

static volatile sig_atomic_t is_over;

static void ends(int signal) {
    (void)signal;
    is_over = 1;
}

bool dchannel_is_over(void) {
    return is_over != 0;
}

static const side_word *side_named(const char *word) {
    for (size_t i = 0; i < sizeof sides / sizeof *sides; i++)
        if (strcmp(sides[i].word, word) == 0)
            return &sides[i];
    return NULL;
}

bool dchannel_reads(dchannel *own, int words, char **word, const char *help, int *status) {
    FILE *usage_to = words == 2 && strcmp(word[1], "--help") == 0 ? stdout : stderr;
    const char *program = own->card.program;
    bool is_traced = linecard_traces(&own->card, LAPD_NETWORK, &words, &word);
    const side_word *side = words < 3 || words > 5 || strncmp(word[1], "--", 2) == 0 ? NULL : side_named(word[2]);
    if (side == NULL) {
        fprintf(usage_to, "usage: %s [--trace] DEVICE nt|te|nt-e1|te-e1 [RECORD [CAPTURE]]\n", program);
        if (usage_to == stdout)
            fputs(help, stdout);
        *status = usage_to == stdout ? 0 : 2;
        return false;
    }
    own->device = word[1];
    own->is_user = side->is_user;
    own->is_primary = side->is_primary;
    own->card.message_came = message_came;
    own->card.changed = changed;
    own->card.side = side_of(own);
    if (is_traced)
        own->card.log->side = own->card.side;
    *status = 1;
    return (words < 4 || (own->card.record = linecard_open(&own->card, word[3])) != NULL)
           && (words < 5 || (own->capture = linecard_open(&own->card, word[4])) != NULL);
}

/* The network of a basic access disowns the TEIs of an earlier run; at primary rate the one TEI is 0. */
static bool begin_teis(dchannel *own) {
    static lapd_report report;
    if (!own->is_primary)
        return own->is_user || linecard_disown(&own->card);
    if (own->card.record != NULL)
        fprintf(own->card.record, "assign 0 0\n");
    uint32_t status = lapd_assign(&own->card.card, 0, 0, &report);
    return linecard_is_ok(&own->card, status, "assign") && linecard_tell(&own->card, &report);
}

bool dchannel_begin(dchannel *own) {
    lapd_config config = config_of(own);
    struct sigaction end;
    if (own->card.side == LAPD_TERMINAL && !is_random(own, &config.seed))
        return false;
    memset(&end, 0, sizeof end); /* without SA_RESTART: a wait is left */
    end.sa_handler = ends;
    sigaction(SIGINT, &end, NULL);
    sigaction(SIGTERM, &end, NULL);
    if (own->card.record != NULL) {
        put_numbers(own->card.record, &config);
        fprintf(own->card.record, own->is_user && !own->is_primary ? " user %u annex-b\n" : own->is_user ? " user annex-b\n" : " annex-b\n", config.seed);
    }
    if (own->capture != NULL)
        pcap_begin(own->capture);
    return linecard_begin(&own->card, lapd_card_start_frames_timed(&own->card.card, &config, &linecard_lengths))
           && begin_teis(own);
}

bool dchannel_end(dchannel *own) {
    bool is_captured = linecard_close(&own->card, own->capture, "capture");
    return linecard_end(&own->card) && is_captured;
}
