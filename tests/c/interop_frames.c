/*
 * interop_frames.c: a real terminal against examples/c/hardware.c. libpri, the ISDN stack of a widespread PBX, is the user
 * side of a basic access line, point to multipoint, at one end of a socket with one frame a datagram, as its drivers give
 * them: no bit is stuffed anywhere. At the other end is the line card, a process of its own.
 *
 *     interop_frames HARDWARE RECORD
 *
 * It gets its TEI, comes up, calls and hangs up, and does so again while a frame is lost each way. Each step is told;
 * status 1 where one did not come in time, or the line card did not end well. For tests alone: see tests/interop.
 */
#define _POSIX_C_SOURCE 200809L

#include <poll.h>
#include <stdbool.h>
#include <stdint.h>
#include <stdio.h>
#include <stdlib.h>
#include <string.h>
#include <sys/socket.h>
#include <sys/wait.h>
#include <unistd.h>

#include "libpri_terminal.h"

enum { MOST_OCTETS = 2048 };

static struct pri *terminal;
static q931_call *call;
static int line;
static unsigned answered, cleared, lose_taken, lose_given, lost;

/* An I-frame is lost, if one is to be. */
static bool is_lost(const uint8_t *frame, int length, unsigned *lose) {
    if (*lose == 0 || length < 7 || (frame[2] & 1) != 0)
        return false;
    --*lose;
    lost++;
    return true;
}

/* libpri takes and hands over frames with two octets of room for a check, which it does not look at. */
static int take(struct pri *pri, void *octets, int room) {
    (void)pri;
    ssize_t length = recv(line, octets, (size_t)room, MSG_DONTWAIT);
    return length <= 0 || is_lost(octets, (int)length, &lose_taken) ? 0 : (int)length;
}

static int give(struct pri *pri, void *octets, int length) {
    (void)pri;
    return is_lost(octets, length, &lose_given) ? length : (int)send(line, octets, (size_t)length, MSG_NOSIGNAL);
}

static void happened(pri_event *event) {
    if (event == NULL)
        return;
    printf("  terminal: %s\n", pri_event2str(event->e));
    answered += event->e == PRI_EVENT_ANSWER;
    cleared += event->e == PRI_EVENT_HANGUP_ACK || event->e == PRI_EVENT_HANGUP;
    if (event->e == PRI_EVENT_HANGUP || event->e == PRI_EVENT_HANGUP_REQ)
        pri_hangup(terminal, event->hangup.call, 16);
}

/* The terminal goes on until the count is what is wanted, or for so long. */
static void step(const char *name, const unsigned *count, unsigned wanted, unsigned ms) {
    struct pollfd there = {.fd = line, .events = POLLIN, .revents = 0};
    printf("%s\n", name);
    for (uint64_t end = monotonic() + ms; *count < wanted && monotonic() < end;) {
        if (poll(&there, 1, 5) > 0)
            happened(pri_check_event(terminal));
        happened(pri_schedule_run(terminal));
    }
    if (*count < wanted) {
        printf("FAILED: %s\n", name);
        exit(1);
    }
}

/* The line card, at the other end of the line. */
static pid_t start(const char *hardware, const char *record) {
    int ends[2];
    if (socketpair(AF_UNIX, SOCK_SEQPACKET, 0, ends) != 0)
        exit(1);
    pid_t child = fork();
    if (child == 0) {
        dup2(ends[1], STDIN_FILENO);
        close(ends[0]);
        close(ends[1]);
        execl(hardware, hardware, "--check", record, (char *)NULL);
        _exit(127);
    }
    close(ends[1]);
    line = ends[0];
    return child;
}

int main(int words, char **argv) {
    if (words != 3)
        return 2;
    setvbuf(stdout, NULL, _IOLBF, 0);
    pid_t child = start(argv[1], argv[2]);
    terminal = libpri_terminal(line, take, give);

    call = libpri_calls(terminal);
    step("it asks for a TEI, comes up, and its call is connected", &answered, 1, 8000);
    pri_hangup(terminal, call, 16);
    step("it hangs up", &cleared, 1, 8000);
    lose_taken = lose_given = 1;
    call = libpri_calls(terminal);
    step("it calls again; a frame is lost each way, and both recover", &answered, 2, 15000);
    if (lost != 2)
        return printf("FAILED: nothing was lost\n"), 1;
    pri_hangup(terminal, call, 16);
    step("it hangs up", &cleared, 2, 8000);

    int status = 1;
    close(line);
    waitpid(child, &status, 0);
    if (status != 0)
        return printf("FAILED: the line card ended with status %d\n", status), 1;
    printf("interop_frames: all steps passed\n");
    return 0;
}
