/*
 * frames.c: lines of programs with hardware of their own, which connect to a Unix seqpacket socket: a frame is a packet.
 * lapd-gateway(8) has the protocol.
 */
#define _GNU_SOURCE

#include <errno.h>
#include <stdio.h>
#include <stdlib.h>
#include <string.h>
#include <sys/epoll.h>
#include <sys/socket.h>
#include <sys/un.h>
#include <unistd.h>

#include "../lines.h"
#include "../log.h"
#include "../loop.h"
#include "../octets.h"
#include "../standby.h"
#include "../watches.h"
#include "driver.h"

enum { BACKLOG = 1024, MOST_STRANGERS = 1024, PATIENCE_MS = 5000, MOST_OF_TURN = 16, SEND_OCTETS = 4096 };

/* A program that has connected: at a line, or not yet. */
typedef struct {
    line *of; /* NULL: it has not said which */
    int fd;
    watch watch;
    sd_event_source *timer; /* of one that has not said it */
} port;

static sd_event_source *listener;
static unsigned strangers;

static void end_port(port *own) {
    strangers -= own->of == NULL;
    watch_end(&own->watch);
    sd_event_source_disable_unref(own->timer);
    close(own->fd);
    free(own);
}

/* The program is gone, and layer 1 with it. */
static void leave(port *own) {
    line *of = own->of;
    end_port(own);
    if (of != NULL) {
        of->port = NULL;
        standby_descriptor(of, -1);
        line_down(of);
    }
}

/* ---- Packets ------------------------------------------------------------------------------------------------------------ */

static void hear_signal(line *own, uint8_t signal) {
    switch (signal) {
    case 'U': line_up(own); break;
    case 'D': line_down(own); break;
    case 'A': line_failed(own, LAPD_ABORT); break;
    case 'R': line_failed(own, LAPD_RAGGED); break;
    case 'S': line_failed(own, LAPD_SHORT); break;
    case 'F': line_failed(own, LAPD_FCS); break;
    default: break;
    }
}

/* The first packet names the line. A program that comes later takes the place of the one before. */
static bool name_line(port *own, const uint8_t *octets, size_t length) {
    bool is_down = length == 5 && octets[4] == 'D';
    line *of = length == 4 || is_down ? line_of(octets_get32(octets)) : NULL;
    if (of == NULL || of->below != &driver_frames)
        return false;
    if (of->port != NULL) {
        line_down(of);
        end_port(of->port);
    }
    of->port = own;
    of->is_full = false;
    standby_descriptor(of, own->fd);
    own->of = of;
    own->timer = sd_event_source_disable_unref(own->timer);
    strangers--;
    if (is_down)
        line_down(of);
    else
        line_up(of);
    return true;
}

/* Many sockets may be ready at once. So the loop hears of each once, and not again and again until it is its turn. What is called
 * then reads until nothing is left; if it stops before, it watches anew. */
static void watch_anew(port *own, bool for_room) {
    watch_set(&own->watch, EPOLLIN | EPOLLET | (for_room ? EPOLLOUT : 0u));
}

typedef enum { TOOK, NOTHING_LEFT, IS_OVER } outcome;

static outcome take(port *own) {
    uint8_t octets[LAPD_MOST_FRAME + 1]; /* one more: a frame that is too long shows */
    ssize_t length = recv(own->fd, octets, sizeof octets, MSG_DONTWAIT);
    if (length <= 0)
        return length < 0 && errno == EAGAIN ? NOTHING_LEFT : length < 0 && errno == EINTR ? TOOK : IS_OVER;
    if (own->of == NULL)
        return name_line(own, octets, (size_t)length) ? TOOK : IS_OVER;
    if (length == 1)
        hear_signal(own->of, octets[0]);
    else
        line_frame(own->of, octets, (size_t)length);
    return TOOK;
}

static void is_ready(void *user, uint32_t events) {
    port *own = user;
    outcome last = TOOK;
    if ((events & EPOLLOUT) != 0) {
        watch_anew(own, false);
        if (own->of != NULL)
            line_has_room(own->of);
    }
    for (unsigned i = 0; i < MOST_OF_TURN && last == TOOK; i++)
        last = take(own);
    if (last == TOOK)
        watch_anew(own, own->of != NULL && own->of->is_full);
    else if (last == IS_OVER)
        leave(own);
}

/* ---- Programs connect --------------------------------------------------------------------------------------------------- */

static int is_late(sd_event_source *source, uint64_t time, void *user) {
    (void)source;
    (void)time;
    leave(user);
    return 0;
}

static int connects(sd_event_source *source, int socket, uint32_t events, void *user) {
    int room = SEND_OCTETS;
    (void)source;
    (void)events;
    (void)user;
    int fd = loop_accept(socket, NULL, NULL);
    port *own = fd < 0 || strangers == MOST_STRANGERS ? NULL : calloc(1, sizeof *own);
    if (own == NULL) {
        if (fd >= 0)
            close(fd);
        return 0;
    }
    own->fd = fd;
    strangers++;
    /* Few frames wait in the socket, as timers run once they are there. */
    setsockopt(fd, SOL_SOCKET, SO_SNDBUF, &room, sizeof room);
    own->timer = loop_timer(is_late, own);
    if (own->timer == NULL || !watch_begin(&own->watch, fd, EPOLLIN | EPOLLET, is_ready, own))
        end_port(own);
    else
        loop_set_timer(own->timer, loop_now() + PATIENCE_MS);
    return 0;
}

static bool begin(const configuration *from) {
    struct sockaddr_un at = {.sun_family = AF_UNIX};
    int fd = socket(AF_UNIX, SOCK_SEQPACKET | SOCK_NONBLOCK | SOCK_CLOEXEC, 0);
    snprintf(at.sun_path, sizeof at.sun_path, "%s", from->lines);
    unlink(from->lines);
    if (fd >= 0 && bind(fd, (struct sockaddr *)&at, sizeof at) == 0 && listen(fd, BACKLOG) == 0
        && sd_event_add_io(loop, &listener, fd, EPOLLIN, connects, NULL) >= 0 && sd_event_source_set_io_fd_own(listener, true) >= 0)
        return true;
    log_line(LOG_FAULT, "%s: %s", from->lines, strerror(errno));
    if (fd >= 0)
        close(fd);
    return false;
}

/* ---- What a line asks --------------------------------------------------------------------------------------------------- */

/* Its program connects, or has connected to another process before. */
static bool open_line(line *own) {
    port *it = own->adopted < 0 ? NULL : calloc(1, sizeof *it);
    if (own->adopted < 0)
        return true;
    if (it == NULL || !watch_begin(&it->watch, own->adopted, EPOLLIN | EPOLLET, is_ready, it)) {
        free(it);
        close(own->adopted);
        line_down(own);
        return true;
    }
    it->of = own;
    it->fd = own->adopted;
    own->port = it;
    return true;
}

static int descriptor(const line *own) {
    return ((const port *)own->port)->fd;
}

static void close_line(line *own) {
    end_port(own->port);
    own->port = NULL;
}

static driver_result send_frame(line *own, const uint8_t *frame, size_t length) {
    port *to = own->port;
    if (send(to->fd, frame, length, MSG_DONTWAIT | MSG_NOSIGNAL) >= 0)
        return DRIVER_SENT;
    if (errno != EAGAIN && errno != ENOBUFS)
        return DRIVER_SENT; /* it is lost, as any on a line; the end of the connection comes as an event */
    watch_anew(to, true);
    return DRIVER_FULL;
}

static void activate(line *own) {
    port *to = own->port;
    (void)!send(to->fd, "W", 1, MSG_DONTWAIT | MSG_NOSIGNAL);
}

const driver driver_frames = {"frames", begin, open_line, close_line, send_frame, descriptor, activate};
