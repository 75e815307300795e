/*
 * slow_send.c: a program that is compiled with `-Dsend=slow_send`, and this file, takes a moment before and after each `send`, up
 * to half a millisecond, at random. So whoever kills it at random moments meets it between any two of its steps. For tests alone.
 */
#define _DEFAULT_SOURCE
#undef send

#include <stdlib.h>
#include <sys/socket.h>
#include <time.h>

ssize_t slow_send(int to, const void *octets, size_t length, int flags);

static void take_a_moment(void) {
    struct timespec moment = {0, rand() % 500000};
    nanosleep(&moment, NULL);
}

ssize_t slow_send(int to, const void *octets, size_t length, int flags) {
    take_a_moment();
    ssize_t sent = send(to, octets, length, flags);
    take_a_moment();
    return sent;
}
