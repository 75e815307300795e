/*
 * misdn.c: lines of ISDN devices that Linux drives by mISDN. The kernel has layer 1 and the hardware; a line is a socket of layer
 * 1, which takes and gives frames without a check. One frame goes at a time: the next one as the kernel confirms the last.
 */
#define _GNU_SOURCE

#include "misdn.h"

#include <errno.h>
#include <stdlib.h>
#include <string.h>
#include <sys/epoll.h>
#include <unistd.h>

#include "../lines.h"
#include "../log.h"
#include "../loop.h"
#include "../standby.h"
#include "../watches.h"
#include "driver.h"

enum { LONGEST = 2048, AGAIN_MS = 1000 };

typedef struct {
    misdn_head head;
    uint8_t octets[LONGEST];
} message;

typedef struct {
    line *of;
    int fd; /* -1: the device is gone */
    watch watch;
    sd_event_source *timer;
    bool is_full; /* a frame is with layer 1, which has not confirmed it */
} port;

static unsigned device_of(const line *own) {
    return configuration_number(&own->of->is.device, own->place);
}

static bool fails(const line *own, const char *what) {
    log_line(LOG_FAULT, "line %u: mISDN's device %u: %s: %s", own->identifier, device_of(own), what, strerror(errno));
    return false;
}

/* ---- Messages to layer 1 ------------------------------------------------------------------------------------------------ */

/* One that layer 1 doesn't take is as lost on the line. */
static bool is_sent(const port *to, uint32_t primitive, const uint8_t *octets, size_t length) {
    message out = {.head = {.primitive = primitive, .id = 0}};
    if (to->fd < 0)
        return false;
    if (length > 0)
        memcpy(out.octets, octets, length);
    return send(to->fd, &out, sizeof out.head + length, MSG_DONTWAIT) >= 0;
}

static void ask_for_layer1(const port *to) {
    (void)is_sent(to, MISDN_ACTIVATE, NULL, 0);
}

static driver_result send_frame(line *own, const uint8_t *frame, size_t length) {
    port *to = own->port;
    if (to->is_full)
        return DRIVER_FULL;
    to->is_full = is_sent(to, MISDN_SEND, frame, length);
    return to->is_full ? DRIVER_SENT_ALL : DRIVER_SENT;
}

static void activate(line *own) {
    ask_for_layer1(own->port);
}

/* ---- Messages of layer 1 ------------------------------------------------------------------------------------------------ */

static void close_socket(port *own) {
    watch_end(&own->watch);
    if (own->fd >= 0)
        close(own->fd);
    own->fd = -1;
    own->is_full = false;
}

static void take(port *own, const message *in, size_t length) {
    switch (in->head.primitive) {
    case MISDN_RECEIVED: line_frame(own->of, in->octets, length); break;
    case MISDN_SENT:
        own->is_full = false;
        line_has_room(own->of);
        break;
    case MISDN_ACTIVE:
        own->is_full = own->is_full && own->of->is_up;
        line_up(own->of);
        break;
    case MISDN_INACTIVE: line_down(own->of); break;
    default: break;
    }
}

static void is_ready(void *user, uint32_t events) {
    port *own = user;
    message in;
    (void)events;
    ssize_t length = recv(own->fd, &in, sizeof in, MSG_DONTWAIT);
    if (length < 0 && (errno == EAGAIN || errno == EINTR))
        return;
    if (length >= (ssize_t)sizeof in.head) {
        take(own, &in, (size_t)length - sizeof in.head);
        return;
    }
    fails(own->of, "it is gone");
    close_socket(own);
    standby_descriptor(own->of, -1);
    line_down(own->of);
}

/* ---- A line begins and ends --------------------------------------------------------------------------------------------- */

static bool open_socket(port *own) {
    const configuration_group *is = &own->of->of->is;
    bool is_network = is->side == LAPD_NETWORK;
    int basic = is_network ? MISDN_NT_S0 : MISDN_TE_S0, primary = is_network ? MISDN_NT_E1 : MISDN_TE_E1;
    misdn_address address = {.family = MISDN_FAMILY, .device = (uint8_t)device_of(own->of)};
    bool is_adopted = own->of->adopted >= 0;
    int kind = SOCK_DGRAM | SOCK_NONBLOCK | SOCK_CLOEXEC, protocol = is->is_primary ? primary : basic;
    own->fd = is_adopted ? own->of->adopted : socket(MISDN_FAMILY, kind, protocol);
    own->of->adopted = -1;
    if (own->fd >= 0 && (is_adopted || bind(own->fd, (struct sockaddr *)&address, sizeof address) == 0)
        && watch_begin(&own->watch, own->fd, EPOLLIN, is_ready, own)) {
        ask_for_layer1(own);
        standby_descriptor(own->of, own->fd);
        return true;
    }
    int why = errno;
    close_socket(own);
    errno = why;
    return false;
}

/* While layer 1 isn't there, it is asked for again each second; and so is a device that is gone. */
static int is_due(sd_event_source *source, uint64_t time, void *user) {
    port *own = user;
    (void)source;
    (void)time;
    if (own->fd < 0 && open_socket(own))
        log_line(LOG_EVENT, "line %u: mISDN's device %u is back", own->of->identifier, device_of(own->of));
    else if (!own->of->is_up || own->of->grace != 0)
        ask_for_layer1(own);
    loop_set_timer(own->timer, loop_now() + AGAIN_MS);
    return 0;
}

static int descriptor(const line *own) {
    return ((const port *)own->port)->fd;
}

static bool begin(const configuration *from) {
    (void)from;
    return true;
}

static void close_line(line *own) {
    port *it = own->port;
    close_socket(it);
    sd_event_source_disable_unref(it->timer);
    free(it);
    own->port = NULL;
}

static bool open_line(line *own) {
    port *it = calloc(1, sizeof *it);
    if (it == NULL)
        return fails(own, "there is no memory");
    own->port = it;
    it->of = own;
    it->fd = -1;
    it->timer = loop_timer(is_due, it);
    if (it->timer == NULL || !open_socket(it)) {
        fails(own, "it can't be opened");
        close_line(own);
        return false;
    }
    loop_set_timer(it->timer, loop_now() + AGAIN_MS);
    return true;
}

const driver driver_misdn = {"misdn", begin, open_line, close_line, send_frame, descriptor, activate};
