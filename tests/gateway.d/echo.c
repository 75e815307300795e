/*
 * echo.c: a bare echo over the sockets of lapd-gateway, to measure what these cost alone: so many lines, and one association.
 *
 *     echo LINES RATE SECONDS EACH [acknowledged]
 *
 * A child sends packets at a rate on each line, EACH at once. The echo hands each to the association with the number of its line;
 * the child sends it back there, and the echo hands it to the line. If packets are acknowledged, as LAPD does it, four octets go
 * the other way on the line for each, which the other end drops. It prints how many messages went through, both ways, and the
 * microseconds of processor that the echo took for each.
 */
#define _GNU_SOURCE

#include <signal.h>
#include <stdbool.h>
#include <stdint.h>
#include <stdio.h>
#include <stdlib.h>
#include <string.h>
#include <sys/epoll.h>
#include <sys/resource.h>
#include <sys/socket.h>
#include <sys/wait.h>
#include <time.h>
#include <unistd.h>

enum { MOST = 1024, OCTETS = 44, ANSWER = 4, HEAD = 24, ROOM = 512, AT_A_TIME = 16, FILES = 4096 };

static int near[MOST + 1], far[MOST + 1]; /* the last is the association */
static uint32_t lines;
static bool is_acknowledged;

static double now(void) {
    struct timespec time;
    clock_gettime(CLOCK_MONOTONIC, &time);
    return (double)time.tv_sec + (double)time.tv_nsec / 1e9;
}

static int watched(const int *sockets, uint32_t count) {
    int epoll = epoll_create1(EPOLL_CLOEXEC);
    for (uint32_t i = 0; i < count; i++) {
        struct epoll_event event = {.events = EPOLLIN, .data.u32 = i};
        epoll_ctl(epoll, EPOLL_CTL_ADD, sockets[i], &event);
    }
    return epoll;
}

/* What comes on a socket of the echo goes out on another; how many packets. */
static unsigned long handed(uint32_t at) {
    uint8_t packet[HEAD + ROOM];
    unsigned long count = 0;
    ssize_t length;
    while (count < AT_A_TIME && (length = recv(near[at], packet + HEAD, ROOM, MSG_DONTWAIT)) > 0) {
        uint32_t line = at;
        if (at != lines && length == ANSWER)
            continue;
        if (at != lines && is_acknowledged)
            (void)!send(near[at], packet, ANSWER, MSG_DONTWAIT | MSG_NOSIGNAL);
        if (at == lines) {
            memcpy(&line, packet + HEAD, sizeof line);
            (void)!send(near[line], packet + 2 * HEAD, (size_t)(length - HEAD), MSG_DONTWAIT | MSG_NOSIGNAL);
        } else {
            memcpy(packet, &line, sizeof line);
            (void)!send(near[lines], packet, (size_t)length + HEAD, MSG_NOSIGNAL);
        }
        count++;
    }
    return count;
}

static unsigned long echo(double until) {
    int epoll = watched(near, lines + 1);
    unsigned long count = 0;
    while (now() < until) {
        struct epoll_event event[64];
        int ready = epoll_wait(epoll, event, 64, 100);
        for (int i = 0; i < ready; i++)
            count += handed(event[i].data.u32);
    }
    return count;
}

/* What came at another end: that of the association sends it back, that of a line acknowledges it. */
static void answered(uint32_t at, const uint8_t *packet, size_t length) {
    if (at == lines)
        (void)!send(far[lines], packet, length, MSG_DONTWAIT | MSG_NOSIGNAL);
    else if (is_acknowledged && length != ANSWER)
        (void)!send(far[at], packet, ANSWER, MSG_DONTWAIT | MSG_NOSIGNAL);
}

/* The other ends of all sockets. */
static void play(double rate, uint32_t each) {
    int epoll = watched(far, lines + 1);
    uint8_t packet[HEAD + ROOM] = {0};
    for (double next = now();; next += 1 / rate) {
        for (uint32_t i = 0; i < lines * each; i++)
            (void)!send(far[i % lines], packet, OCTETS, MSG_DONTWAIT | MSG_NOSIGNAL);
        while (now() < next + 1 / rate) {
            struct epoll_event event[64];
            int ready = epoll_wait(epoll, event, 64, 1);
            for (int i = 0; i < ready; i++) {
                ssize_t length = recv(far[event[i].data.u32], packet, sizeof packet, MSG_DONTWAIT);
                if (length > 0)
                    answered(event[i].data.u32, packet, (size_t)length);
            }
        }
    }
}

int main(int words, char **word) {
    struct rlimit files = {FILES, FILES};
    struct rusage used;
    lines = words == 5 || words == 6 ? (uint32_t)strtoul(word[1], NULL, 10) : MOST + 1;
    is_acknowledged = words == 6;
    if (lines > MOST)
        return fputs("usage: echo LINES RATE SECONDS EACH [acknowledged]\n", stderr), 2;
    (void)setrlimit(RLIMIT_NOFILE, &files);
    for (uint32_t i = 0; i <= lines; i++) {
        int both[2];
        if (socketpair(AF_UNIX, SOCK_SEQPACKET | SOCK_CLOEXEC, 0, both) != 0)
            return perror("echo"), 1;
        near[i] = both[0];
        far[i] = both[1];
    }
    pid_t child = fork();
    if (child == 0)
        play(atof(word[2]), (uint32_t)strtoul(word[4], NULL, 10));
    unsigned long count = echo(now() + atof(word[3]));
    getrusage(RUSAGE_SELF, &used);
    kill(child, SIGKILL);
    waitpid(child, NULL, 0);
    double micros = 1e6 * (double)(used.ru_utime.tv_sec + used.ru_stime.tv_sec)
                    + (double)(used.ru_utime.tv_usec + used.ru_stime.tv_usec);
    printf("%lu %.3f\n", count, micros / (double)(count > 0 ? count : 1));
    return 0;
}
