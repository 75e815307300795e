/*
 * interop_standby.c: a call that survives its card. libpri, the ISDN stack of a widespread PBX, is the terminal of a basic access
 * line at one end of a socket; at the other is examples/c/standby.c, whose active process is killed (SIGKILL) again and again, at
 * random moments, mostly while something is under way (slow_send.c). One frame in twenty is lost each way besides.
 *
 * Layer 3, which is here, sends STATUS ENQUIRY after STATUS ENQUIRY, each with a call reference that libpri does not know. libpri
 * answers each by RELEASE COMPLETE with that reference. So a message goes each way for each, and what comes is compared: each
 * reference once, in order, none missing. Meanwhile a call of libpri's is connected, and stays so. Notes come by their numbers,
 * each request is answered, and no link goes down, nor comes up anew. In the end libpri hangs up, and the last process ends well.
 *
 *     interop_standby STANDBY [KILLS [SEED [missing|twice]]]
 *
 * With `missing` layer 3 does not hear one of the messages, and with `twice` it hears one again: the test has to say so. Status 1
 * where anything is not so. For tests alone: see tests/interop.
 */
#define _GNU_SOURCE

#include <fcntl.h>
#include <poll.h>
#include <signal.h>
#include <stdbool.h>
#include <stdio.h>
#include <stdlib.h>
#include <string.h>
#include <sys/prctl.h>
#include <sys/socket.h>
#include <sys/wait.h>
#include <unistd.h>

#include "libpri_terminal.h"
#include "q931.h"
#include "standby.h"

enum { CHECK_OCTETS = 2, LOST_OF = 20, T200_MS = 200, MOST_KEPT = 16, MOST_IN_TRANSIT = 6, REFERENCES = 100, SPOILT = 20 };
enum { LAYER_3 = 3, MOST_MS_UNTIL_KILL = 120, STATUS_ENQUIRY = 0x75, RELEASE_COMPLETE = 0x5A };

static int line, layer_3;
static pid_t active;
static uint64_t chance = 1, kill_at;
static bool is_killing, has_losses;
static unsigned kills, kills_wanted = 50, taken_over, lost, frames, told_again, asked_again, late;

static void fail(const char *why) {
    printf("FAILED: %s, after %u kills\n", why, kills);
    if (active > 0)
        kill(active, SIGKILL);
    exit(1);
}

static unsigned below(unsigned most) {
    chance = chance * 6364136223846793005u + 1442695040888963407u;
    return (unsigned)((chance >> 33) % most);
}

/* ---- The line ----------------------------------------------------------------------------------------------------- */

static bool is_lost(void) {
    bool answer = has_losses && below(LOST_OF) == 0;
    frames++;
    lost += answer;
    return answer;
}

/* libpri takes and hands over frames with two octets of room for a check, which it does not look at. */
static int take(struct pri *pri, void *octets, int room) {
    (void)pri;
    ssize_t length = recv(line, octets, (size_t)room - CHECK_OCTETS, MSG_DONTWAIT);
    if (length <= 0 || is_lost())
        return 0;
    memset((uint8_t *)octets + length, 0, CHECK_OCTETS);
    return (int)length + CHECK_OCTETS;
}

static int give(struct pri *pri, void *octets, int length) {
    (void)pri;
    if (!is_lost() && send(line, octets, (size_t)length - CHECK_OCTETS, MSG_NOSIGNAL) < 0)
        fail("a frame does not go");
    return length;
}

/* ---- The terminal ------------------------------------------------------------------------------------------------- */

static struct pri *terminal;
static unsigned connected, cleared;
static bool is_hanging_up;

static void happened(pri_event *event) {
    if (event == NULL)
        return;
    connected += event->e == PRI_EVENT_ANSWER;
    cleared += event->e == PRI_EVENT_HANGUP_ACK || event->e == PRI_EVENT_HANGUP;
    if (event->e == PRI_EVENT_DCHAN_DOWN || (event->e == PRI_EVENT_HANGUP && !is_hanging_up))
        fail("the terminal's link, or its call, is down");
    if (event->e == PRI_EVENT_HANGUP || event->e == PRI_EVENT_HANGUP_REQ)
        pri_hangup(terminal, event->hangup.call, 16);
}

/* ---- Layer 3 ------------------------------------------------------------------------------------------------------ */

static standby_message kept[MOST_KEPT]; /* requests without an answer, from `oldest` on */
static uint32_t oldest = 1, asked, told;
static unsigned up, enquiries, answers;
static unsigned spoilt_times = 1; /* so often layer 3 hears the message that is spoilt */
static uint8_t tei;

static void say(const standby_message *message) {
    if (send(layer_3, message, STANDBY_OCTETS(message), MSG_NOSIGNAL) < 0)
        fail("layer 3 has nobody to ask");
}

static void ask(uint8_t request, const uint8_t *contents, size_t length) {
    standby_message *message = &kept[++asked % MOST_KEPT];
    if (asked - oldest >= MOST_KEPT)
        fail("requests are not answered");
    memset(message, 0, sizeof *message);
    message->kind = STANDBY_ASK;
    message->what = request;
    message->service = LAPD_CALL;
    message->tei = tei;
    message->number = asked;
    message->length = (uint16_t)length;
    memcpy(message->contents, contents, length);
    say(message);
}

/* Another process is the active one: it is asked anew for all that was not answered. It is killed in a while. */
static void taken_over_by(pid_t process) {
    active = process;
    taken_over++;
    kill_at = monotonic() + below(MOST_MS_UNTIL_KILL);
    for (uint32_t number = oldest; number <= asked; number++) {
        say(&kept[number % MOST_KEPT]);
        asked_again++;
    }
}

static void answered(const standby_message *message) {
    if (message->number < oldest)
        return; /* once more */
    if (message->number != oldest || message->number > asked)
        fail("an answer to another request");
    if (message->status != LAPD_OK)
        fail(lapd_status_text(message->status));
    oldest++;
}

/* A message of the terminal: RELEASE COMPLETE of the oldest enquiry that has none, or one of its call. */
static void message_came(const uint8_t *octets, size_t length) {
    uint8_t answer[Q931_MOST_ANSWER];
    if (length >= 4 && octets[0] == 8 && octets[1] == 1 && (octets[2] & 0x80) != 0 && octets[3] == RELEASE_COMPLETE) {
        if (answers == enquiries || octets[2] != (0x80 | (answers % REFERENCES + 1)))
            fail("a message is missing, came twice, or out of order");
        answers++;
        return;
    }
    size_t octets_of_answer = q931_answer(octets, length, answer);
    if (octets_of_answer != 0)
        ask(LAPD_DATA, answer, octets_of_answer);
}

static void note_came(const standby_message *message) {
    if (message->number <= told) {
        told_again++;
        return;
    }
    if (message->number != told + 1)
        fail("a note is missing");
    told++;
    switch (message->what) {
    case LAPD_ASSIGNED: tei = message->tei; break;
    case LAPD_ESTABLISH_INDICATION: up++; break;
    case LAPD_DATA_INDICATION:
        for (unsigned times = message->number == SPOILT ? spoilt_times : 1; times > 0; times--)
            message_came(message->contents, message->length);
        break;
    case LAPD_ERROR_INDICATION:
        late += message->error == 'A'; /* an answer with F=1 came after a second enquiry: the machine was slow, and nothing is lost */
        if (message->error == 'A')
            break; /* fall through */
    default: {
        const lapd_note note = {message->what, message->service, message->tei, message->error, {0}};
        printf("  %s %u %c\n", lapd_note_text(&note), note.tei, note.error != 0 ? note.error : ' ');
        fail("a note of another kind");
    }
    }
    if (up > 1)
        fail("the link is established anew");
}

static void layer_3_hears(void) {
    standby_message message;
    if (recv(layer_3, &message, sizeof message, MSG_DONTWAIT) <= 0)
        return;
    switch (message.kind) {
    case STANDBY_ACTIVE: taken_over_by((pid_t)message.number); break;
    case STANDBY_ANSWER: answered(&message); break;
    case STANDBY_TOLD: note_came(&message); break;
    default: fail("a message of another kind");
    }
}

/* As many enquiries as may be without an answer. */
static void enquire(void) {
    while (is_killing && enquiries - answers < MOST_IN_TRANSIT && asked - oldest + 1 < MOST_IN_TRANSIT) {
        const uint8_t message[] = {8, 1, (uint8_t)(enquiries % REFERENCES + 1), STATUS_ENQUIRY};
        enquiries++;
        ask(LAPD_DATA, message, sizeof message);
    }
}

/* ---- Steps -------------------------------------------------------------------------------------------------------- */

/* The active process is killed if it is time, or at once where something has just come from it, so that it is in the middle of
 * something else; not before it has said that it is active. */
static void kill_it(bool is_busy) {
    if (!is_killing || kills == kills_wanted || active == 0 || monotonic() < kill_at || (!is_busy && below(50) != 0))
        return;
    usleep(below(2000));
    kill(active, SIGKILL);
    active = 0;
    kills++;
}

/* All go on until the count is what is wanted, or for so long. */
static void step(const char *name, const unsigned *count, unsigned wanted, unsigned ms) {
    struct pollfd there[] = {{.fd = line, .events = POLLIN}, {.fd = layer_3, .events = POLLIN}};
    printf("%s\n", name);
    for (uint64_t end = monotonic() + ms; *count < wanted; ) {
        if (monotonic() > end)
            fail(name);
        enquire();
        bool is_busy = poll(there, 2, 1) > 0;
        kill_it(is_busy);
        if (there[0].revents != 0)
            happened(pri_check_event(terminal));
        if (there[1].revents != 0)
            layer_3_hears();
        happened(pri_schedule_run(terminal));
    }
}

/* The two processes, at the other ends of the line and of layer 3. */
static void start(const char *standby) {
    int line_ends[2], layer_3_ends[2];
    prctl(PR_SET_CHILD_SUBREAPER, 1); /* a process whose parent was killed is this one's child */
    if (socketpair(AF_UNIX, SOCK_SEQPACKET, 0, line_ends) != 0 || socketpair(AF_UNIX, SOCK_SEQPACKET, 0, layer_3_ends) != 0)
        fail("there is no socket");
    line = line_ends[0];
    layer_3 = layer_3_ends[0];
    pid_t child = fork();
    if (child == 0) {
        int own_line = fcntl(line_ends[1], F_DUPFD, 20), own_layer_3 = fcntl(layer_3_ends[1], F_DUPFD, 20);
        dup2(own_line, STDIN_FILENO);
        dup2(own_layer_3, LAYER_3);
        for (int other = LAYER_3 + 1; other < 64; other++)
            close(other);
        execl(standby, standby, "--t200", "200", "--n200", "10", (char *)NULL);
        _exit(127);
    }
    close(line_ends[1]);
    close(layer_3_ends[1]);
}

/* The last process ends well, once the line has ended. */
static bool ends_well(void) {
    int status = 1;
    pid_t last = active, ended;
    close(line);
    close(layer_3);
    bool is_well = false;
    while ((ended = waitpid(-1, &status, 0)) > 0)
        is_well |= ended == last && status == 0;
    return is_well;
}

int main(int words, char **argv) {
    if (words < 2)
        return 2;
    kills_wanted = words > 2 ? (unsigned)strtoul(argv[2], NULL, 10) : 50;
    chance = words > 3 ? strtoull(argv[3], NULL, 10) : 1;
    if (words > 4)
        spoilt_times = strcmp(argv[4], "missing") == 0 ? 0 : 2;
    setvbuf(stdout, NULL, _IOLBF, 0);
    start(argv[1]);
    terminal = libpri_terminal(line, take, give);
    step("a process is active", &taken_over, 1, 5000);
    pri_set_timer(terminal, PRI_TIMER_T200, T200_MS);
    pri_set_timer(terminal, PRI_TIMER_N200, 10);
    q931_call *call = libpri_calls(terminal);
    step("the terminal asks for a TEI, comes up, and its call is connected", &connected, 1, 8000);
    has_losses = is_killing = true;
    step("messages go each way, while frames are lost and processes are killed", &taken_over, kills_wanted + 1, 120000);
    step("and go on", &answers, 4 * kills_wanted, 60000);
    is_killing = false;
    step("all that was asked is answered", &answers, enquiries, 15000);
    is_hanging_up = true;
    pri_hangup(terminal, call, 16);
    step("the terminal hangs up", &cleared, 1, 10000);
    if (kills != kills_wanted || lost == 0 || up != 1)
        fail("too little has happened");
    if (!ends_well())
        fail("the last process does not end well");
    printf("interop_standby: %u processes were killed; %u messages each way, once and in order; %u of %u frames lost; layer 3 was told "
           "%u notes again, and asked %u requests again\n", kills, answers, lost, frames, told_again, asked_again);
    return 0;
}
