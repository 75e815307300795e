/*
 * watches.h: descriptors of lines and of associations. sd-event hands over one source a turn of the loop. So these have an epoll of
 * their own, which is one source: a turn has all that are ready, up to a limit, and the work at its end is done once for all.
 */
#ifndef WATCHES_H
#define WATCHES_H

#include <stdbool.h>
#include <stdint.h>

/* Called with events of epoll(7). */
typedef void (*watch_ready)(void *user, uint32_t events);

/* It stays at its place until it ends. One that is zero is not watched. */
typedef struct {
    int fd;
    uint32_t events;
    watch_ready is_ready; /* NULL: it is not watched */
    void *user;
} watch;

/* Begins with these events, as of epoll_ctl(2). False: the system does not watch it. */
bool watch_begin(watch *own, int fd, uint32_t events, watch_ready is_ready, void *user);

/* It is watched for these events from now on. With EPOLLET what is ready already is told once more. */
void watch_set(watch *own, uint32_t events);

/* It is called no more, not even in this turn. This comes before its descriptor is closed, which may be open elsewhere, too. */
void watch_end(watch *own);

#endif
