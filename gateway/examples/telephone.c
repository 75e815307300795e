/*
 * telephone.c: an ISDN telephone of libpri's, whose S bus is a line of lapd-gateway. It calls a number, talks for a second and
 * hangs up; or it waits for a call, answers, and ends as the other hangs up.
 *
 *     cc -O2 -o telephone telephone.c -lpri
 *     telephone LINES LINE [NUMBER]
 *
 * LINES is the gateway's socket of lines, and LINE an interface identifier of basic access. It tells what happens on standard
 * output. Its status is 0 if there was a call, and 1 if there was none for ten seconds.
 */
#define _GNU_SOURCE

#include <poll.h>
#include <stdio.h>
#include <stdlib.h>
#include <string.h>
#include <sys/socket.h>
#include <sys/time.h>
#include <sys/un.h>
#include <time.h>

#include <libpri.h>

enum { CHECK_OCTETS = 2, TALK_MS = 1000, PATIENCE_MS = 10000, NORMAL_CLEARING = 16 };

static struct pri *line;
static q931_call *call;
static char *number;                    /* it calls, or NULL */
static long long begun, talks_until, asked; /* in milliseconds; 0: not yet */
static int is_over;

static long long now(void) {
    struct timespec time;
    clock_gettime(CLOCK_MONOTONIC, &time);
    return time.tv_sec * 1000LL + time.tv_nsec / 1000000;
}

/* libpri hands over and takes frames with two octets for a check, which the gateway's socket does not have. */
static int take(struct pri *own, void *frame, int room) {
    ssize_t length = recv(pri_fd(own), frame, (size_t)(room - CHECK_OCTETS), MSG_DONTWAIT);
    return length <= 0 ? 0 : (int)length + CHECK_OCTETS;
}

static int give(struct pri *own, void *frame, int length) {
    return send(pri_fd(own), frame, (size_t)(length - CHECK_OCTETS), MSG_DONTWAIT | MSG_NOSIGNAL) < 0 ? -1 : length;
}

static void quiet(struct pri *own, char *text) { (void)own, (void)text; }

static int join(const char *path, unsigned long identifier) {
    struct sockaddr_un to = {.sun_family = AF_UNIX};
    unsigned char name[4] = {(unsigned char)(identifier >> 24), (unsigned char)(identifier >> 16), (unsigned char)(identifier >> 8),
                             (unsigned char)identifier};
    int own = socket(AF_UNIX, SOCK_SEQPACKET, 0);
    strncpy(to.sun_path, path, sizeof to.sun_path - 1);
    return connect(own, (struct sockaddr *)&to, sizeof to) == 0 && send(own, name, sizeof name, 0) == sizeof name ? own : -1;
}

static void dial(void) {
    struct pri_sr *request = pri_sr_new();
    call = pri_new_call(line);
    pri_sr_set_channel(request, 1, 0, 0);
    pri_sr_set_bearer(request, 0, PRI_LAYER_1_ALAW);
    pri_sr_set_called(request, number, PRI_NATIONAL_ISDN, 1);
    pri_setup(line, call, request);
    pri_sr_free(request);
    asked = now();
    printf("calls %s\n", number);
}

static void happened(const pri_event *event) {
    switch (event->e) {
    case PRI_EVENT_RING:
        call = event->ring.call;
        printf("rings, and answers\n");
        pri_answer(line, call, event->ring.channel, 1);
        break;
    case PRI_EVENT_RINGING: printf("it rings there\n"); break;
    case PRI_EVENT_ANSWER:
        printf("they talk\n");
        talks_until = now() + TALK_MS;
        break;
    case PRI_EVENT_HANGUP_REQ: /* the other wants to end the call: it is over as the exchange has released it */
        printf("the other hangs up\n");
        pri_hangup(line, event->hangup.call, NORMAL_CLEARING);
        break;
    case PRI_EVENT_HANGUP:
        printf("it is over\n");
        pri_hangup(line, event->hangup.call, NORMAL_CLEARING);
        is_over = 1;
        break;
    case PRI_EVENT_HANGUP_ACK:
        printf("it is over\n");
        is_over = 1;
        break;
    default: break;
    }
    fflush(stdout);
}

/* What libpri's timers and what came lead to. */
static void serve(void) {
    const struct timeval *next = pri_schedule_next(line);
    struct timeval today;
    char peeked;
    pri_event *event = NULL;
    gettimeofday(&today, NULL);
    if (next != NULL && timercmp(next, &today, <))
        event = pri_schedule_run(line);
    if (event == NULL && recv(pri_fd(line), &peeked, 1, MSG_PEEK | MSG_DONTWAIT) > 0)
        event = pri_check_event(line);
    if (event != NULL)
        happened(event);
}

int main(int words, char **word) {
    if (words < 3 || words > 4)
        return fputs("usage: telephone LINES LINE [NUMBER]\n", stderr), 2;
    int fd = join(word[1], strtoul(word[2], NULL, 10));
    if (fd < 0)
        return perror(word[1]), 1;
    pri_set_message(quiet);
    pri_set_error(quiet);
    line = pri_new_bri_cb(fd, 0, PRI_CPE, PRI_SWITCH_EUROISDN_E1, take, give, NULL);
    number = word[3];
    begun = now();
    while (!is_over && (call != NULL || now() < begun + PATIENCE_MS)) {
        struct pollfd at = {.fd = fd, .events = POLLIN};
        poll(&at, 1, 10);
        serve();
        if (number != NULL && asked == 0 && now() > begun + TALK_MS) /* it has a TEI, and its link, by then */
            dial();
        if (talks_until != 0 && now() > talks_until) {
            talks_until = 0;
            printf("hangs up\n");
            pri_hangup(line, call, NORMAL_CLEARING);
        }
    }
    for (long long until = now() + 200; now() < until;) /* its last frames are acknowledged */
        serve();
    return !is_over;
}
