/* watches.c: descriptors of lines and of associations. See watches.h. */
#define _GNU_SOURCE

#include "watches.h"

#include <sys/epoll.h>
#include <unistd.h>

#include "loop.h"

enum { MOST_OF_TURN = 64 };

static int epoll = -1;
static struct epoll_event ready[MOST_OF_TURN]; /* of this turn */
static int ready_count;

static int are_ready(sd_event_source *source, int fd, uint32_t events, void *user) {
    (void)source;
    (void)events;
    (void)user;
    ready_count = epoll_wait(fd, ready, MOST_OF_TURN, 0);
    for (int i = 0; i < ready_count; i++) {
        const watch *it = ready[i].data.ptr;
        if (it != NULL)
            it->is_ready(it->user, ready[i].events);
    }
    ready_count = 0;
    return 0;
}

/* The epoll is made as it is needed first, and stays. */
static bool has_epoll(void) {
    if (epoll >= 0)
        return true;
    epoll = epoll_create1(EPOLL_CLOEXEC);
    if (epoll >= 0 && sd_event_add_io(loop, NULL, epoll, EPOLLIN, are_ready, NULL) >= 0)
        return true;
    if (epoll >= 0)
        close(epoll);
    epoll = -1;
    return false;
}

bool watch_begin(watch *own, int fd, uint32_t events, watch_ready is_ready, void *user) {
    struct epoll_event event = {.events = events, .data.ptr = own};
    if (!has_epoll() || epoll_ctl(epoll, EPOLL_CTL_ADD, fd, &event) != 0)
        return false;
    *own = (watch){fd, events, is_ready, user};
    return true;
}

void watch_set(watch *own, uint32_t events) {
    struct epoll_event event = {.events = events, .data.ptr = own};
    if (own->is_ready == NULL || (events == own->events && (events & EPOLLET) == 0))
        return;
    own->events = events;
    epoll_ctl(epoll, EPOLL_CTL_MOD, own->fd, &event);
}

void watch_end(watch *own) {
    if (own->is_ready == NULL)
        return;
    epoll_ctl(epoll, EPOLL_CTL_DEL, own->fd, NULL);
    for (int i = 0; i < ready_count; i++)
        if (ready[i].data.ptr == own)
            ready[i].data.ptr = NULL;
    *own = (watch){-1, 0, NULL, NULL};
}
