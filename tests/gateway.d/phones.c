/*
 * phones.c: libpri at the other end of lines of lapd-gateway, each with calls one after the other.
 *
 *     phones PATH FIRST COUNT basic|primary CALLS
 *
 * A line of basic access is a terminal, and one of primary rate a private exchange. Each call is answered and cleared. It tells
 * how many were made, answered and ended, and its status is 0 if all were. VERBOSE=1 shows what libpri says.
 */
#define _GNU_SOURCE

#include <poll.h>
#include <stdbool.h>
#include <stddef.h>
#include <stdio.h>
#include <stdlib.h>
#include <string.h>
#include <sys/socket.h>
#include <sys/time.h>
#include <sys/un.h>
#include <time.h>
#include <unistd.h>

#include <libpri.h>

enum { MOST = 64, CHECK_OCTETS = 2, BEGIN_MS = 2000, MOST_MS = 110000, NORMAL_CLEARING = 16 };

typedef struct {
    struct pri *pri;
    q931_call *call;
    int fd;
    unsigned made, answered, ended;
} phone;

static phone phones[MOST];
static unsigned count, calls;
static bool is_primary;

static long long now(void) {
    struct timespec time;
    clock_gettime(CLOCK_MONOTONIC, &time);
    return time.tv_sec * 1000LL + time.tv_nsec / 1000000;
}

/* libpri has two octets for a check at the end of each frame. */
static int take(struct pri *pri, void *buffer, int room) {
    ssize_t length = recv(pri_fd(pri), buffer, (size_t)(room - CHECK_OCTETS), MSG_DONTWAIT);
    return length <= 0 ? 0 : (int)length + CHECK_OCTETS;
}

static int give(struct pri *pri, void *buffer, int length) {
    return send(pri_fd(pri), buffer, (size_t)(length - CHECK_OCTETS), MSG_DONTWAIT | MSG_NOSIGNAL) < 0 ? -1 : length;
}

static void say(struct pri *pri, char *text) {
    (void)pri;
    if (getenv("VERBOSE") != NULL)
        fputs(text, stderr);
}

static bool join(phone *own, const char *path, unsigned iid) {
    struct sockaddr_un to = {.sun_family = AF_UNIX};
    const unsigned char name[4] = {(unsigned char)(iid >> 24), (unsigned char)(iid >> 16), (unsigned char)(iid >> 8),
                                   (unsigned char)iid};
    strncpy(to.sun_path, path, sizeof to.sun_path - 1);
    own->fd = socket(AF_UNIX, SOCK_SEQPACKET, 0);
    if (connect(own->fd, (struct sockaddr *)&to, sizeof to) != 0 || send(own->fd, name, sizeof name, 0) != sizeof name)
        return false;
    own->pri = is_primary ? pri_new_cb(own->fd, PRI_CPE, PRI_SWITCH_EUROISDN_E1, take, give, NULL)
                          : pri_new_bri_cb(own->fd, 0, PRI_CPE, PRI_SWITCH_EUROISDN_E1, take, give, NULL);
    return own->pri != NULL;
}

static void call(phone *own) {
    static char number[] = "4711";
    struct pri_sr *request = pri_sr_new();
    own->call = pri_new_call(own->pri);
    pri_sr_set_channel(request, 1, is_primary, 0);
    pri_sr_set_bearer(request, 0, PRI_LAYER_1_ALAW);
    pri_sr_set_called(request, number, PRI_NATIONAL_ISDN, 1);
    pri_setup(own->pri, own->call, request);
    pri_sr_free(request);
    own->made++;
}

static void happened(phone *own, pri_event *event) {
    if (event->e == PRI_EVENT_ANSWER) {
        own->answered++;
        pri_hangup(own->pri, own->call, NORMAL_CLEARING);
    }
    if (event->e == PRI_EVENT_HANGUP)
        pri_hangup(own->pri, event->hangup.call, NORMAL_CLEARING);
    if (event->e == PRI_EVENT_HANGUP || event->e == PRI_EVENT_HANGUP_ACK) {
        own->ended++;
        own->call = NULL;
    }
}

/* What a timer that is due tells; its moment is of the time of day. */
static pri_event *expired(phone *own) {
    const struct timeval *next = pri_schedule_next(own->pri);
    struct timeval today;
    gettimeofday(&today, NULL);
    return next == NULL || timercmp(next, &today, >) ? NULL : pri_schedule_run(own->pri);
}

static void serve(phone *own) {
    char peeked;
    bool has_frame;
    do {
        pri_event *event = expired(own);
        has_frame = recv(own->fd, &peeked, 1, MSG_PEEK | MSG_DONTWAIT) > 0;
        if (event == NULL && has_frame)
            event = pri_check_event(own->pri);
        if (event != NULL)
            happened(own, event);
    } while (has_frame);
}

static unsigned sum(size_t offset) {
    unsigned total = 0;
    for (unsigned i = 0; i < count; i++)
        total += *(const unsigned *)(const void *)((const char *)&phones[i] + offset);
    return total;
}

int main(int words, char **word) {
    struct pollfd line[MOST];
    if (words != 6 || (count = (unsigned)atoi(word[3])) > MOST)
        return fputs("usage: phones PATH FIRST COUNT basic|primary CALLS\n", stderr), 2;
    calls = (unsigned)atoi(word[5]);
    is_primary = strcmp(word[4], "primary") == 0;
    pri_set_message(say);
    pri_set_error(say);
    for (unsigned i = 0; i < count; i++) {
        if (!join(&phones[i], word[1], (unsigned)atoi(word[2]) + i))
            return perror(word[1]), 1;
        line[i] = (struct pollfd){.fd = phones[i].fd, .events = POLLIN};
    }
    for (long long begun = now(); sum(offsetof(phone, ended)) < count * calls && now() < begun + MOST_MS;) {
        poll(line, count, 10);
        for (phone *it = phones; it < phones + count; it++) {
            serve(it);
            if (it->call == NULL && it->made < calls && now() >= begun + BEGIN_MS)
                call(it);
        }
    }
    unsigned made = sum(offsetof(phone, made)), answered = sum(offsetof(phone, answered)), ended = sum(offsetof(phone, ended));
    printf("libpri: lines %u made %u answered %u ended %u\n", count, made, answered, ended);
    return made != count * calls || answered != made || ended != made;
}
