/*
 * roles.c: examples/c/misdn.c against the kernel's own layer 2, in a virtual machine. Two devices of l1oip are
 * each other's end: misdn has device 0, and the kernel's layer 2 device 1. Layer 3 over that is here. It sends messages, which
 * have to come back as they are, each once and in order; then it releases the link. So misdn plays each of its four sides.
 *
 * Then the same with one message in three seconds, for longer than l1oip keeps layer 1 up (65 s): layer 1 is lost and found again,
 * and the link has to be established anew each time. A message that was in transit then may be lost, one for each loss.
 *
 * A line for each: `good` or `BAD`, and what was. After a run of the second kind the lines of misdn's record, and of what it told,
 * follow: `record nt in 0 00817F`. For tests/kernel/run alone.
 */
#define _GNU_SOURCE

#include <fcntl.h>
#include <poll.h>
#include <signal.h>
#include <stdio.h>
#include <stdlib.h>
#include <string.h>
#include <sys/wait.h>
#include <unistd.h>

#include "l1oip.h"
#include "machine.h"
#include "misdn.h"

enum { LONGEST = 260, PATIENCE_MS = 55000, SLOW_MS = 200000, SLOW_STEP_MS = 3000, IN_TRANSIT = 5, MESSAGES = 60 };

typedef struct {
    misdn_head head;
    uint8_t octets[2048];
} message;

/* The kernel's layer 2, and what this layer 3 knows of it. */
static struct {
    int file;
    bool is_terminal, is_slow; /* the kernel's layer 2 is a terminal, or the user's side */
    uint8_t channel;           /* the kernel's, of the link */
    bool is_up, is_asked, is_ending;
    unsigned wanted, sent, came, ups, downs, wrong, missing;
    uint64_t began, next, again;
} peer;

/* The octets of a message of this number. None begins like one of Q.931, which misdn answers. */
static size_t contents_of(unsigned number, uint8_t *octets) {
    size_t length = number == 1 ? LONGEST : 1 + number * 7919 % LONGEST;
    for (size_t i = 0; i < length; i++)
        octets[i] = (uint8_t)(number * 31 + i * (number | 1));
    octets[0] |= 0x40;
    return length;
}

static bool is_contents(unsigned number, const uint8_t *octets, size_t length) {
    uint8_t wanted[LONGEST];
    return contents_of(number, wanted) == length && memcmp(wanted, octets, length) == 0;
}

/* Asks the kernel's layer 2 for something of the link; contents lie in the message. */
static void ask(message *out, uint32_t primitive, size_t length) {
    misdn_address to = {.family = MISDN_FAMILY, .device = 1, .channel = peer.channel};
    out->head = (misdn_head){.primitive = primitive};
    if (sendto(peer.file, out, sizeof out->head + length, 0, peer.is_terminal ? NULL : (struct sockaddr *)&to,
               peer.is_terminal ? 0 : sizeof to) < 0)
        perror("roles: layer 2");
}

/* A message came back: in a slow run those before it may be missing, which were in transit as layer 1 was lost. */
static void came_back(const uint8_t *octets, size_t length) {
    unsigned number = peer.came;
    while (peer.is_slow && number < peer.sent && !is_contents(number, octets, length))
        number++;
    if (!is_contents(number, octets, length))
        peer.wrong++;
    else
        peer.missing += number - peer.came;
    peer.came = number + 1;
}

static void hear(const message *in, size_t length) {
    switch (in->head.primitive) {
    case MISDN_ESTABLISH_INDICATION:
    case MISDN_ESTABLISH_CONFIRM:
        peer.ups++;
        peer.is_up = true;
        peer.channel = (uint8_t)(in->head.id >> 16);
        break;
    case MISDN_RELEASE_INDICATION:
    case MISDN_RELEASE_CONFIRM:
        peer.downs += peer.is_up;
        peer.is_up = peer.is_asked = false;
        peer.again = machine_now() + 1000;
        break;
    case MISDN_DATA_INDICATION: came_back(in->octets, length); break;
    default: break;
    }
}

/* Messages go, a few at a time, or one in three seconds; after the last has come back, the link is released. */
static void send_messages(message *out) {
    while (peer.is_up && peer.sent < peer.wanted
           && (peer.is_slow ? machine_now() > peer.next : peer.sent - peer.came < IN_TRANSIT)) {
        peer.next = machine_now() + SLOW_STEP_MS;
        ask(out, MISDN_DATA, contents_of(peer.sent++, out->octets));
    }
    if (peer.came == peer.wanted && peer.is_up && !peer.is_ending) {
        peer.is_ending = true;
        ask(out, MISDN_RELEASE, 0);
    }
}

/* A terminal establishes its link. l1oip sends nothing as it is to activate layer 1, so two devices that are each other's end stay
 * down until a frame goes: unit data does that, as long as a slow run has no link. */
static void keep_up(message *out) {
    uint64_t now = machine_now(), age = now - peer.began;
    if (peer.is_terminal && !peer.is_up && !peer.is_asked && !peer.is_ending && age > 1000 && now > peer.again) {
        peer.is_asked = true;
        ask(out, MISDN_ESTABLISH, 0);
    }
    if (peer.is_slow && !peer.is_up && age > 60000 && now > peer.next) {
        peer.next = now + 500;
        out->octets[0] = 1;
        ask(out, MISDN_UNIT, 1);
    }
}

static bool is_over(void) {
    return peer.is_ending && !peer.is_up;
}

static void converse(void) {
    static message it;
    struct pollfd line = {.fd = peer.file, .events = POLLIN, .revents = 0};
    uint64_t end = peer.began + (peer.is_slow ? SLOW_MS : PATIENCE_MS);
    while (machine_now() < end && !is_over()) {
        if (poll(&line, 1, 100) > 0) {
            ssize_t length = recv(peer.file, &it, sizeof it, 0);
            if (length < (ssize_t)sizeof it.head)
                return;
            hear(&it, (size_t)length - sizeof it.head);
        }
        keep_up(&it);
        send_messages(&it);
    }
}

/* The kernel's layer 2 at device 1. */
static bool opens(bool is_primary) {
    int clear = 1;
    misdn_address at = {.family = MISDN_FAMILY, .device = 1, .tei = is_primary ? 0 : 127};
    peer.file = socket(MISDN_FAMILY, SOCK_DGRAM | SOCK_CLOEXEC, peer.is_terminal ? MISDN_LAPD_TE : MISDN_LAPD_NT);
    bool good = peer.file >= 0 && bind(peer.file, (struct sockaddr *)&at, sizeof at) == 0;
    if (!good)
        perror("roles: layer 2");
    else if (!peer.is_terminal)
        ioctl(peer.file, MISDN_CLEAR_LAYER2, &clear);
    return good;
}

/* What misdn tells goes to a file. */
static pid_t start(const char *side) {
    unlink("/told");
    pid_t child = fork();
    if (child == 0) {
        dup2(open("/told", O_RDWR | O_CREAT | O_TRUNC, 0644), STDERR_FILENO);
        execl("/misdn", "misdn", "0", side, "/record", (char *)NULL);
        perror("roles: misdn");
        _exit(1);
    }
    return child;
}

/* Whether misdn ends by a signal with status 0. */
static bool ends(pid_t child) {
    int status = 1;
    kill(child, SIGTERM);
    return waitpid(child, &status, 0) == child && status == 0;
}

/* The lines of a file, each after a name and the side. */
static void show(const char *path, const char *name, const char *side) {
    char line[1024];
    FILE *file = fopen(path, "r");
    while (file != NULL && fgets(line, sizeof line, file) != NULL)
        printf("%s %s %s", name, side, line);
    if (file != NULL)
        fclose(file);
}

static bool is_good(void) {
    if (peer.is_slow)
        return peer.wrong == 0 && peer.is_up && peer.downs > 0 && peer.missing <= peer.downs && peer.sent - peer.came <= 1;
    return peer.came == peer.wanted && peer.wrong == 0 && peer.ups == 1 && peer.downs == 1;
}

/* misdn plays this side. Whether all went well. */
static bool play(const char *side, bool is_slow) {
    bool is_primary = strstr(side, "e1") != NULL;
    memset(&peer, 0, sizeof peer);
    peer.is_terminal = side[0] == 'n';
    peer.is_slow = is_slow;
    peer.wanted = is_slow ? 1000 : MESSAGES;
    if (!l1oip_load(2, is_primary, true))
        return false;
    peer.began = machine_now();
    machine_wait(300);
    if (!opens(is_primary))
        return false;
    pid_t child = start(side);
    converse();
    bool good = is_good();
    good = ends(child) && good;
    printf("%s misdn %s%s: %u of %u messages came back, %u wrong, %u missing, %u up, %u down, %.1f s\n", good ? "good" : "BAD",
           side, is_slow ? " slow" : "", peer.came, is_slow ? peer.sent : peer.wanted, peer.wrong, peer.missing, peer.ups,
           peer.downs, (double)(machine_now() - peer.began) / 1000);
    if (!good || is_slow) {
        show("/record", "record", side);
        show("/told", "told", side);
    }
    close(peer.file);
    return l1oip_unload() && good;
}

int main(void) {
    static const char *const sides[] = {"nt", "te", "nt-e1", "te-e1"};
    bool good = true;
    setvbuf(stdout, NULL, _IOLBF, 0);
    for (unsigned i = 0; i < 8; i++)
        good = play(sides[i / 2], i % 2 == 1) && good;
    return !good;
}
