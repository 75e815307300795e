/*
 * interop_saved.c: two exchanges to which the same happens, and one of them is saved every 100 ms, ends, and is restored in a new
 * process. Each has four basic access lines of 16 kbit/s, at each of which libpri, the ISDN stack of a widespread PBX, is the
 * terminal. An exchange is a card through the C library, of frames or of octets, which keeps its own timers or has a clock beside it
 * (saved_exchange.c). One frame in twenty is lost each way besides.
 *
 * Layer 3, which is here, sends STATUS ENQUIRY after STATUS ENQUIRY on each line, each with a call reference that libpri does not
 * know. libpri answers each by RELEASE COMPLETE with that reference. So a message goes each way for each, and what comes is compared:
 * each reference once, in order, none missing. Meanwhile a call of libpri's is connected, and stays so. Each link comes up once, no
 * error is told, and libpri tells nothing. In the end libpri hangs up. By frames both exchanges tell and send the same at each
 * moment. By octets a frame that is under way as one is saved is lost.
 *
 *     interop_saved EXCHANGE frames|octets own|clock [SAVES [SEED [stale]]]
 *
 * EXCHANGE is the program of saved_exchange.c. With `stale` one restore is from the image before the last: the test has to say so.
 * Time is simulated, for libpri too. Status 1 where anything is not so. For tests alone: see tests/interop.
 */
#include <stdbool.h>
#include <stdio.h>
#include <stdlib.h>
#include <string.h>
#include <sys/socket.h>
#include <sys/time.h>
#include <sys/wait.h>
#include <unistd.h>

#include "hdlc.h"
#include "libpri_terminal.h"
#include "q931.h"
#include "saved_exchange.h"

enum { EXCHANGES = 2, SAVED = 1, CHECK_OCTETS = 2, LOST_OF = 20, EACH_MS = 100, MOST_LATE = 10, MOST_FRAMES = 32 };
enum { MOST_IN_TRANSIT = 6, MOST_ASKED = 8, REFERENCES = 100, STATUS_ENQUIRY = 0x75, RELEASE_COMPLETE = 0x5A };

static const char *program, *kind, *timers;
static bool for_octets, has_losses, is_enquiring, is_hanging_up;
static uint64_t now, save_at = EACH_MS;
static unsigned long saves, stale_at;

static void want(bool is, const char *what) {
    if (is)
        return;
    printf("FAILED: after %lu saves, at %llu ms: %s\n", saves, (unsigned long long)now, what);
    exit(1);
}

static unsigned below(uint64_t *chance, unsigned most) {
    *chance = *chance * 6364136223846793005u + 1442695040888963407u;
    return (unsigned)((*chance >> 33) % most);
}

/* ---- Lines -------------------------------------------------------------------------------------------------------- */

/* Frames that wait, or are on their way. */
typedef struct {
    size_t first, count, lengths[MOST_FRAMES];
    uint8_t octets[MOST_FRAMES][HDLC_MOST_OCTETS];
} frames;

/* A line, with the terminal at its other end, and its layer 3. */
typedef struct {
    struct pri *terminal;
    q931_call *call;
    uint64_t chance, of_libpri; /* what is lost, and libpri's numbers */
    frames to_card, on_their_way, to_terminal;
    uint64_t card_hears_at, terminal_hears_at; /* by frames: when the first one has come */
    hdlc_sender sender;
    hdlc_listener listener;
    unsigned connected, cleared, assigned, up, enquiries, answers, lost, given;
    uint8_t tei;
    saved_item asked[MOST_ASKED]; /* with the next turn */
    size_t asked_count;
} line;

/* An exchange: its process, and the socket to it. */
typedef struct {
    pid_t process;
    int socket;
    line lines[SAVED_LINES];
} exchange;

static exchange exchanges[EXCHANGES];
static line *current; /* whose libpri is called */

static bool is_lost(line *at) {
    bool answer = has_losses && below(&at->chance, LOST_OF) == 0;
    at->given++;
    at->lost += answer;
    return answer;
}

static void put(frames *to, const uint8_t *octets, size_t length) {
    want(to->count < MOST_FRAMES && length <= HDLC_MOST_OCTETS, "a frame finds no room");
    size_t place = (to->first + to->count++) % MOST_FRAMES;
    memcpy(to->octets[place], octets, length);
    to->lengths[place] = length;
}

static size_t take_first(frames *from, uint8_t *octets) {
    size_t length = from->lengths[from->first];
    memcpy(octets, from->octets[from->first], length);
    from->first = (from->first + 1) % MOST_FRAMES;
    from->count--;
    return length;
}

/* How long a frame goes, with its check and a flag. */
static uint64_t ms_of(size_t length) {
    return (length + CHECK_OCTETS + 1 + SAVED_OCTETS_A_MS - 1) / SAVED_OCTETS_A_MS;
}

/* ---- libpri ------------------------------------------------------------------------------------------------------- */

/* libpri's time: a while after 1970. */
int gettimeofday(struct timeval *restrict at, void *restrict zone) {
    (void)zone;
    at->tv_sec = (time_t)(1000000 + now / 1000);
    at->tv_usec = (suseconds_t)(now % 1000 * 1000);
    return 0;
}

/* Its numbers are those of a line: the same in both exchanges. */
long random(void) {
    return below(&current->of_libpri, 1U << 31);
}

static void tells(struct pri *pri, char *text) {
    (void)pri;
    printf("libpri: %s", text);
    want(false, "libpri tells something");
}

/* libpri takes and hands over frames with two octets of room for a check, which it does not look at. */
static int take(struct pri *pri, void *octets, int room) {
    (void)pri;
    (void)room;
    if (current->to_terminal.count == 0)
        return 0;
    size_t length = take_first(&current->to_terminal, octets);
    memset((uint8_t *)octets + length, 0, CHECK_OCTETS);
    return (int)length + CHECK_OCTETS;
}

static int give(struct pri *pri, void *octets, int length) {
    (void)pri;
    put(&current->to_card, octets, (size_t)length - CHECK_OCTETS);
    return length;
}

static void happened(const pri_event *event) {
    if (event == NULL)
        return;
    current->connected += event->e == PRI_EVENT_ANSWER;
    current->cleared += event->e == PRI_EVENT_HANGUP_ACK || event->e == PRI_EVENT_HANGUP;
    want(event->e != PRI_EVENT_DCHAN_DOWN && (event->e != PRI_EVENT_HANGUP || is_hanging_up), "a terminal's link, or its call, is down");
}

static void turn_terminal(line *at) {
    current = at;
    while (at->to_terminal.count > 0)
        happened(pri_check_event(at->terminal));
    happened(pri_schedule_run(at->terminal));
}

/* ---- Layer 3 ------------------------------------------------------------------------------------------------------ */

static void ask(line *at, const uint8_t *octets, size_t length) {
    want(at->asked_count < MOST_ASKED, "too much is asked for");
    saved_item *item = &at->asked[at->asked_count++];
    memset(item, 0, sizeof *item);
    item->what = SAVED_ASK;
    item->tei = at->tei;
    item->length = (uint16_t)length;
    memcpy(item->octets, octets, length);
}

/* RELEASE COMPLETE of the oldest enquiry that has none, or a message of libpri's call. */
static void message_came(line *at, const uint8_t *octets, size_t length) {
    uint8_t answer[Q931_MOST_ANSWER];
    if (length >= 4 && octets[0] == 8 && octets[1] == 1 && (octets[2] & 0x80) != 0 && octets[3] == RELEASE_COMPLETE) {
        want(at->answers < at->enquiries && octets[2] == (0x80 | (at->answers % REFERENCES + 1)), "a message is missing, came twice, or out of order");
        at->answers++;
        return;
    }
    size_t octets_of_answer = q931_answer(octets, length, answer);
    if (octets_of_answer != 0)
        ask(at, answer, octets_of_answer);
}

static void note_came(line *at, const saved_item *told) {
    switch (told->note) {
    case LAPD_ASSIGNED: at->tei = told->tei; at->assigned++; break;
    case LAPD_ESTABLISH_INDICATION: at->up++; break;
    case LAPD_DATA_INDICATION: message_came(at, told->octets, told->length); break;
    default: {
        const lapd_note note = {told->note, LAPD_CALL, told->tei, told->error, {0}};
        want(false, lapd_note_text(&note));
    }
    }
    want(at->assigned <= 1 && at->up <= 1, "another TEI, or a link is established anew");
}

static void enquire(line *at) {
    while (is_enquiring && at->enquiries - at->answers < MOST_IN_TRANSIT) {
        const uint8_t message[] = {8, 1, (uint8_t)(at->enquiries % REFERENCES + 1), STATUS_ENQUIRY};
        at->enquiries++;
        ask(at, message, sizeof message);
    }
}

/* ---- A millisecond ------------------------------------------------------------------------------------------------ */

/* The octets that come to a card in it, or the frame that has come. */
static void comes(line *at, saved_item *item) {
    uint8_t frame[HDLC_MOST_OCTETS];
    item->what = for_octets ? SAVED_OCTETS : SAVED_FRAME;
    while (for_octets && item->length < SAVED_OCTETS_A_MS) {
        while (!hdlc_busy(&at->sender) && at->to_card.count > 0) {
            size_t length = take_first(&at->to_card, frame);
            if (!is_lost(at))
                hdlc_load(&at->sender, frame, length);
        }
        item->octets[item->length++] = hdlc_octet(&at->sender);
    }
    if (for_octets || at->to_card.count == 0) {
        at->card_hears_at = now;
    } else if (at->card_hears_at + ms_of(at->to_card.lengths[at->to_card.first]) <= now) {
        at->card_hears_at = now;
        size_t length = take_first(&at->to_card, frame);
        want(length <= LAPD_MOST_FRAME, "a frame is too long");
        item->length = is_lost(at) ? 0 : (uint16_t)length;
        memcpy(item->octets, frame, item->length);
    }
}

/* What an exchange told or sends. */
static void went(line *at, const saved_item *item) {
    if (item->what == SAVED_TOLD)
        note_came(at, item);
    if (item->what == SAVED_FRAME) {
        put(&at->on_their_way, item->octets, item->length);
        at->terminal_hears_at = now + ms_of(item->length);
    }
    for (int i = 0; item->what == SAVED_OCTETS && i < item->length; i++)
        if (hdlc_hear(&at->listener, item->octets[i]) && !is_lost(at))
            put(&at->to_terminal, at->listener.frame, at->listener.length);
}

static void put_item(saved_message *to, uint8_t of, const saved_item *item) {
    want(to->count < SAVED_MOST_ITEMS, "too much comes");
    to->items[to->count] = *item;
    to->items[to->count++].line = of;
}

static void turn(exchange *own, saved_message *answer) {
    static saved_message message;
    memset(&message, 0, offsetof(saved_message, items));
    message.kind = SAVED_TURN;
    message.now = now;
    for (uint8_t of = 0; of < SAVED_LINES; of++) {
        line *at = &own->lines[of];
        saved_item item = {0};
        uint8_t frame[HDLC_MOST_OCTETS];
        if (at->on_their_way.count > 0 && at->terminal_hears_at <= now) {
            size_t length = take_first(&at->on_their_way, frame);
            if (!is_lost(at))
                put(&at->to_terminal, frame, length);
        }
        enquire(at);
        comes(at, &item);
        if (item.length > 0)
            put_item(&message, of, &item);
        for (size_t i = 0; i < at->asked_count; i++)
            put_item(&message, of, &at->asked[i]);
        at->asked_count = 0;
        message.has_room[of] = !for_octets && at->on_their_way.count == 0;
    }
    want(send(own->socket, &message, SAVED_OCTETS_OF(&message), MSG_NOSIGNAL) > 0 && recv(own->socket, answer, sizeof *answer, 0) > 0, "an exchange is gone");
    for (const saved_item *item = answer->items; item < answer->items + answer->count; item++)
        went(&own->lines[item->line], item);
    for (line *at = own->lines; at < own->lines + SAVED_LINES; at++)
        turn_terminal(at);
}

/* ---- Processes ---------------------------------------------------------------------------------------------------- */

static void says(const exchange *own, const void *octets, size_t length) {
    want(send(own->socket, octets, length, MSG_NOSIGNAL) == (ssize_t)length, "an exchange does not listen");
}

static void begin(exchange *own, uint8_t how) {
    int ends[2];
    want(socketpair(AF_UNIX, SOCK_SEQPACKET, 0, ends) == 0, "there is no socket");
    own->process = fork();
    if (own->process == 0) {
        dup2(ends[1], SAVED_SOCKET);
        for (int other = SAVED_SOCKET + 1; other < 32; other++)
            close(other);
        execl(program, program, kind, timers, (char *)NULL);
        _exit(127);
    }
    close(ends[1]);
    own->socket = ends[0];
    const saved_message message = {.kind = how};
    says(own, &message, SAVED_OCTETS_OF(&message));
}

static void end(const exchange *own) {
    int status = 1;
    close(own->socket);
    want(waitpid(own->process, &status, 0) == own->process && status == 0, "an exchange does not end well");
}

/* The exchange is saved, and ends; another process goes on from its image, or from the one before it. */
static void save(exchange *own) {
    static uint8_t images[2][2][SAVED_MOST_IMAGE]; /* two saves, each of a card and of a clock */
    static size_t lengths[2][2];
    const saved_message message = {.kind = SAVED_SAVE};
    unsigned latest = saves % 2, from = saves == stale_at ? 1 - latest : latest;
    says(own, &message, SAVED_OCTETS_OF(&message));
    for (int i = 0; i < 2; i++) {
        ssize_t length = recv(own->socket, images[latest][i], SAVED_MOST_IMAGE, 0);
        want(length > 0, "an exchange is not saved");
        lengths[latest][i] = (size_t)length;
    }
    end(own);
    begin(own, SAVED_RESTORE);
    for (int i = 0; i < 2; i++)
        says(own, images[from][i], lengths[from][i]);
    saves++;
}

/* ---- Steps -------------------------------------------------------------------------------------------------------- */

static void millisecond(void) {
    static saved_message answers[EXCHANGES];
    static uint64_t chance = 1, late;
    for (int i = 0; i < EXCHANGES; i++)
        turn(&exchanges[i], &answers[i]);
    want(for_octets || (answers[0].count == answers[1].count && memcmp(answers[0].items, answers[1].items, answers[0].count * sizeof(saved_item)) == 0),
         "the exchange that was saved tells or sends something else");
    now++;
    if (now >= save_at + late) {
        save(&exchanges[SAVED]);
        save_at += EACH_MS;
        late = below(&chance, MOST_LATE);
    }
}

static bool all(bool (*is)(const line *at)) {
    bool answer = true;
    for (int i = 0; i < EXCHANGES * SAVED_LINES; i++)
        answer &= is(&exchanges[i / SAVED_LINES].lines[i % SAVED_LINES]);
    return answer;
}

static bool is_connected(const line *at) { return at->connected == 1; }
static bool is_answered(const line *at) { return at->answers == at->enquiries; }
static bool is_cleared(const line *at) { return at->cleared == 1; }

static void step(const char *name, bool (*is)(const line *at), uint64_t ms) {
    for (uint64_t last = now + ms; now < last && !all(is);)
        millisecond();
    want(all(is), name);
}

static void start(uint64_t seed) {
    for (exchange *own = exchanges; own < exchanges + EXCHANGES; own++) {
        begin(own, SAVED_START);
        for (unsigned of = 0; of < SAVED_LINES; of++) {
            line *at = current = &own->lines[of];
            at->chance = 64 * seed + of;
            at->of_libpri = 64 * seed + of + 32;
            hdlc_begin(&at->sender);
            hdlc_listen(&at->listener);
            at->terminal = libpri_terminal(-1, take, give);
            pri_set_timer(at->terminal, PRI_TIMER_T200, SAVED_T200);
            pri_set_timer(at->terminal, PRI_TIMER_N200, 10);
            at->call = libpri_calls(at->terminal);
        }
    }
    pri_set_error(tells);
    pri_set_message(tells);
}

int main(int words, char **word) {
    if (words < 4)
        return 2;
    program = word[1];
    kind = word[2];
    timers = word[3];
    for_octets = strcmp(kind, "octets") == 0;
    unsigned long wanted = words > 4 ? strtoul(word[4], NULL, 10) : 1200;
    stale_at = words > 6 ? wanted / 2 : wanted + 1000;
    start(words > 5 ? strtoull(word[5], NULL, 10) : 1);
    step("each terminal gets a TEI, comes up, and its call is connected", is_connected, 8000);
    has_losses = is_enquiring = true;
    while (saves < wanted)
        millisecond();
    is_enquiring = false;
    step("all that was asked is answered", is_answered, 60000);
    is_hanging_up = true;
    for (int i = 0; i < EXCHANGES * SAVED_LINES; i++) {
        current = &exchanges[i / SAVED_LINES].lines[i % SAVED_LINES];
        pri_hangup(current->terminal, current->call, 16);
    }
    step("each terminal hangs up", is_cleared, 10000);
    unsigned long answers = 0, lost = 0, given = 0;
    for (const line *at = exchanges[SAVED].lines; at < exchanges[SAVED].lines + SAVED_LINES; at++) {
        want(at->answers > wanted / 2 && at->up == 1, "too little has happened");
        answers += at->answers;
        lost += at->lost;
        given += at->given;
    }
    for (int i = 0; i < EXCHANGES; i++)
        end(&exchanges[i]);
    printf("interop_saved: %s, %s: saved and restored in a new process %lu times in %llu ms; %lu messages each way, once and in order; "
           "%lu of %lu frames lost%s\n", kind, strcmp(timers, "own") == 0 ? "own timers" : "a clock", saves, (unsigned long long)now, answers, lost, given,
           for_octets ? ", and what was under way" : "; the other exchange tells and sends the same");
    return 0;
}
