/*
 * standby.c: a card whose calls survive it. Two processes have the same card: the active one serves the line, and the standby is
 * handed each call that the active one makes on its card, over a socket pair, and makes the same. A card does the same for the
 * same calls, so both are always in the same state. When the active process is killed, the other goes on, and starts a standby of
 * its own. A standby is this program, started anew: it gets the card's image first, and from then on the calls. So one that joins
 * late knows all, and later software comes in without dropping a call: replace the program, and kill the active process twice.
 * Build both from the same lapd.h: calls and what they led to go over as memory, and only the image is the same for every build.
 *
 *     cc -O2 -I .. -o standby standby.c ../lapd.c
 *     standby [--t200 MS] [--n200 N] <> LINE 3<> LAYER3
 *
 * LINE is a socket with one frame a datagram, without a check, and LAYER3 one with the messages of standby.h. Both processes have
 * them open, so that one goes on where the other stopped. They have one clock, too: with another, a standby would go on from the
 * moment of the image. The order is all that matters:
 *
 *  1. A call goes to the standby, with its moment, before the card is called (send_over, in `make`).
 *  2. What the call led to goes out only then: notes and answers to layer 3, a frame to the line.
 *  3. The next call comes only after that.
 *
 * So a standby that takes over has seen all whose effects went out, and of the last call alone it cannot know whether they did. It
 * tells layer 3 these once more, with their numbers. A frame of that call it does not send: then it is lost, as any frame may be,
 * while a frame that comes twice may harm a link (a SABME ends what is in transit). A frame that came and a request that the
 * killed process had read, but not yet sent over, are lost. The frame is repeated by its sender (T200), and the request by layer 3.
 * Calls that only ask (lapd_next_moment and so on) change nothing, and need not be sent.
 */
#define _POSIX_C_SOURCE 200809L

#include <errno.h>
#include <poll.h>
#include <signal.h>
#include <stdbool.h>
#include <stddef.h>
#include <stdio.h>
#include <stdlib.h>
#include <string.h>
#include <sys/socket.h>
#include <time.h>
#include <unistd.h>

#include "lapd.h"
#include "standby.h"

enum { LINE = 0, LAYER_3 = 3, OVER = 4, LONGEST_WAIT = 10000, MOST_IMAGE = 1 << 16 };

static const char usage[] = "usage: standby [--t200 MS] [--n200 N] <> LINE 3<> LAYER3\n";
static const char help[] =
    "\n"
    "A card with one basic access line in two processes: when the active one is killed, the other goes on with its calls.\n"
    "\n"
    "  --t200  how long T200 is, in milliseconds: 1 to 3600000, by default 1000\n"
    "  --n200  how often a command is repeated: 0 to 10, by default 3\n"
    "  LINE    a socket with one frame a datagram, without a check\n"
    "  LAYER3  a socket with the messages of standby.h\n";

/* Calls of the card's, and that there is none any more. */
typedef enum { TIME, FRAME, REQUEST, NEXT_FRAME, END } call_kind;

/* A call, with all its words. */
typedef struct {
    call_kind what;
    uint64_t now;
    uint32_t number; /* of a request */
    uint8_t request, service, tei;
    size_t length;
    uint8_t octets[LAPD_MOST_FRAME + 1]; /* of a frame, one more: one that is too long shows */
} call;

static lapd_config config = LAPD_BASIC_ACCESS;
static lapd_lengths lengths = LAPD_DEFAULT_LENGTHS;
static lapd_card card = LAPD_CARD_NONE;
static const char *program;
static int over = -1; /* to the other process */
static uint8_t image[MOST_IMAGE];

/* What the last call led to, and what was told and asked for in all: the same in both processes. */
static struct {
    lapd_report report;
    bool is_done; /* nothing was due before it any more */
    size_t length; /* of a frame that goes */
    uint8_t frame[LAPD_MOST_FRAME];
    uint32_t told, asked; /* numbers of the last note, and of the last request */
    uint32_t status;      /* what became of that request */
    bool is_answer;       /* whether the last call was it */
} last;

static uint64_t now(void) {
    struct timespec time;
    clock_gettime(CLOCK_MONOTONIC, &time); /* of the machine: the same in both processes */
    return (uint64_t)time.tv_sec * 1000 + (uint64_t)time.tv_nsec / 1000000;
}

static void must(bool is, const char *what) {
    if (!is) {
        fprintf(stderr, "standby: %s\n", what);
        exit(1);
    }
}

/* ---- The card: what both processes do ----------------------------------------------------------------------------- */

/* Makes a call, and keeps what it led to. */
static void happen(const call *it) {
    uint32_t status = LAPD_OK;
    last.report.note_count = 0;
    last.length = 0;
    last.is_done = false;
    switch (it->what) {
    case TIME:
        status = lapd_fall_due(&card, it->now, &last.report);
        last.is_done = status == LAPD_NO_TIMER;
        break;
    case FRAME:
        status = lapd_frame_at(&card, it->now, 0, it->octets, it->length, &last.is_done, &last.report);
        break;
    case REQUEST:
        status = lapd_request_at(&card, it->now, 0, it->request, it->service, it->tei, it->octets, it->length, &last.is_done,
                                 &last.report);
        break;
    case NEXT_FRAME:
        status = lapd_next_frame_at(&card, it->now, 0, last.frame, sizeof last.frame, &last.length, &last.report);
        last.is_done = status == LAPD_NO_FRAME || last.length != 0;
        break;
    case END: exit(0);
    }
    last.told += last.report.note_count;
    last.is_answer = it->what == REQUEST && last.is_done;
    if (last.is_answer) {
        last.asked = it->number;
        last.status = status;
    }
    must(last.is_done || status == LAPD_OK, lapd_status_text(status)); /* the clock was set back */
}

/* ---- The standby -------------------------------------------------------------------------------------------------- */

/* What the active process sent next; 0 octets or less when that is no more. */
static ssize_t receive(void *octets, size_t room) {
    ssize_t length;
    while ((length = recv(OVER, octets, room, 0)) < 0 && errno == EINTR)
        ;
    return length;
}

/* The card is that of the image which comes first, and then the calls come that the active process makes, until that is no more. */
static void join(void) {
    call it;
    ssize_t length = receive(image, sizeof image);
    must(length > 0 && lapd_card_restore(&card, image, (size_t)length) == LAPD_OK, "there is no image of a card");
    must(receive(&last, sizeof last) == sizeof last, "there is no last call");
    while (receive(&it, sizeof it) > 0)
        happen(&it);
    close(OVER);
}

/* Whether octets went to the standby: otherwise it is gone. */
static bool is_sent(const void *octets, size_t length) {
    ssize_t sent;
    while ((sent = send(over, octets, length, MSG_NOSIGNAL)) < 0 && errno == EINTR)
        ;
    return sent >= 0;
}

/* Starts a standby, and hands it the card as it is now, and what the last call led to. */
static void start_standby(void) {
    size_t length;
    do {
        int ends[2];
        close(over);
        must(socketpair(AF_UNIX, SOCK_SEQPACKET, 0, ends) == 0, "there is no socket pair");
        pid_t child = fork();
        must(child >= 0, "there is no second process");
        if (child == 0) {
            close(ends[1]);
            must(dup2(ends[0], OVER) == OVER && execlp(program, program, "--join", (char *)NULL) == 0, "the program is not there");
        }
        close(ends[0]);
        over = ends[1];
        must(lapd_card_save(&card, image, sizeof image, &length) == LAPD_OK, "there is no image");
    } while (!is_sent(image, length) || !is_sent(&last, sizeof last));
}

/* A call goes to the standby. If that is gone, another begins with the card as it is before the call. */
static void send_over(const call *it) {
    while (!is_sent(it, offsetof(call, octets) + it->length))
        start_standby();
}

/* The line, or layer 3, has ended: the standby is to end, too. */
static void end(void) {
    call it = {.what = END};
    send_over(&it);
    exit(0);
}

/* ---- Layer 3 ------------------------------------------------------------------------------------------------------ */

static void say(const standby_message *message) {
    while (send(LAYER_3, message, STANDBY_OCTETS(message), MSG_NOSIGNAL) < 0)
        if (errno != EINTR)
            end();
}

static void answer(void) {
    standby_message message = {.kind = STANDBY_ANSWER, .number = last.asked, .status = last.status};
    say(&message);
}

/* Tells layer 3 what the last call led to. */
static void tell(void) {
    const lapd_report *report = &last.report;
    for (unsigned i = 0; i < report->note_count; i++) {
        const lapd_note *note = &report->notes[i];
        bool is_of_contents = note->note == LAPD_DATA_INDICATION || note->note == LAPD_UNIT_INDICATION;
        standby_message message = {.kind = STANDBY_TOLD, .what = note->note, .service = note->service, .tei = note->tei,
                                   .error = note->error, .length = is_of_contents ? report->length : (uint16_t)0,
                                   .number = last.told - report->note_count + 1 + i};
        memcpy(message.contents, report->contents, message.length);
        say(&message);
    }
    if (last.is_answer)
        answer();
}

/* ---- The active process ------------------------------------------------------------------------------------------- */

/* A call, in the only order in which it survives: over to the standby, then to the card, and then what it led to goes out. Whether
 * it was made; if not, a timer expired before it. */
static bool make(const call *it) {
    send_over(it);
    happen(it);
    tell();
    if (last.length != 0 && send(LINE, last.frame, last.length, MSG_NOSIGNAL) < 0 && errno != EINTR)
        end();
    return last.is_done;
}

static void make_whole(const call *it) {
    while (!make(it))
        ;
}

/* Frames that wait go, as long as the line has room for one more; whether it has none. */
static bool is_full(uint64_t moment) {
    struct pollfd room = {.fd = LINE, .events = POLLOUT, .revents = 0};
    for (uint32_t line; lapd_next_waiting(&card, 0, &line) == LAPD_OK;) {
        call it = {.what = NEXT_FRAME, .now = moment};
        if (poll(&room, 1, 0) != 1 || (room.revents & POLLOUT) == 0)
            return true;
        make(&it);
    }
    return false;
}

static void frame_comes(uint64_t moment) {
    call it = {.what = FRAME, .now = moment};
    ssize_t length = recv(LINE, it.octets, sizeof it.octets, MSG_DONTWAIT);
    if (length == 0 || (length < 0 && errno == ECONNRESET))
        end();
    it.length = length > 0 ? (size_t)length : 0;
    if (length > 0)
        make_whole(&it);
}

/* Layer 3 asks. A request that was made is answered again, and one that is not the next is ignored: layer 3 asks once more. */
static void layer_3_asks(uint64_t moment) {
    standby_message message;
    ssize_t length = recv(LAYER_3, &message, sizeof message, MSG_DONTWAIT);
    if (length == 0 || (length < 0 && errno == ECONNRESET))
        end();
    if (length < (ssize_t)offsetof(standby_message, contents) || (size_t)length != STANDBY_OCTETS(&message))
        return;
    if (message.number == last.asked)
        answer();
    if (message.kind != STANDBY_ASK || message.number != last.asked + 1)
        return;
    call it = {.what = REQUEST, .now = moment, .number = message.number, .request = message.what, .service = message.service,
               .tei = message.tei, .length = message.length};
    memcpy(it.octets, message.contents, message.length);
    make_whole(&it);
}

/* Milliseconds until a timer falls due, for poll. */
static int patience(uint64_t moment) {
    uint64_t due, left = LONGEST_WAIT;
    if (lapd_next_moment(&card, &due) == LAPD_OK && due < moment + left)
        left = due > moment ? due - moment : 0;
    return (int)left;
}

/* Serves the line and layer 3 until one of them ends. */
static void serve(void) {
    struct pollfd from[] = {{.fd = LINE, .events = POLLIN}, {.fd = LAYER_3, .events = POLLIN}};
    for (uint64_t moment = now();; moment = now()) {
        call time = {.what = TIME, .now = moment};
        make_whole(&time);
        if (from[0].revents & (POLLIN | POLLHUP | POLLERR))
            frame_comes(moment);
        if (from[1].revents & (POLLIN | POLLHUP | POLLERR))
            layer_3_asks(moment);
        from[0].events = is_full(moment) ? POLLIN | POLLOUT : POLLIN;
        if (poll(from, 2, patience(moment)) < 0)
            from[0].revents = from[1].revents = 0;
    }
}

/* ---- Its start ---------------------------------------------------------------------------------------------------- */

/* Reads an option's number, and takes both words off; false if it is another word, or no number: then the words stay. */
static bool is_option(const char *name, int *words, char ***word, unsigned long *number) {
    if (*words < 3 || strcmp((*word)[1], name) != 0)
        return false;
    char *end;
    *number = strtoul((*word)[2], &end, 10);
    if ((*word)[2][0] < '0' || (*word)[2][0] > '9' || *end != 0 || *number > 3600000)
        return false;
    *words -= 2;
    *word += 2;
    return true;
}

/* Reads the options, and starts a card. */
static void start(int words, char **word) {
    unsigned long number;
    while (words > 1)
        if (is_option("--t200", &words, &word, &number))
            lengths.t200 = (uint32_t)number;
        else if (is_option("--n200", &words, &word, &number))
            config.n200 = number < UINT16_MAX ? (uint16_t)number : UINT16_MAX;
        else {
            fputs(usage, stderr);
            exit(2);
        }
    uint32_t status = lapd_card_start_frames_timed(&card, &config, &lengths);
    must(status == LAPD_OK, lapd_status_text(status));
}

int main(int words, char **word) {
    program = word[0];
    if (words == 2 && strcmp(word[1], "--help") == 0) {
        printf("%s%s", usage, help);
        return 0;
    }
    signal(SIGCHLD, SIG_IGN); /* nobody waits for a standby that was killed */
    if (words == 2 && strcmp(word[1], "--join") == 0)
        join();
    else
        start(words, word);
    start_standby();
    tell(); /* of the last call, once more */
    standby_message message = {.kind = STANDBY_ACTIVE, .number = (uint32_t)getpid()};
    say(&message);
    serve();
}
