/* standby.c: the active process, and what it hands to its standby. See standby.h. */
#define _GNU_SOURCE

#include "standby.h"

#include <errno.h>
#include <poll.h>
#include <stdio.h>
#include <string.h>
#include <sys/epoll.h>
#include <sys/socket.h>
#include <sys/un.h>
#include <unistd.h>

#include "associations.h"
#include "cards.h"
#include "lines.h"
#include "log.h"
#include "loop.h"
#include "record.h"
#include "servers.h"
#include "standby_form.h"
#include "state.h"

enum { PATIENCE_MS = 500 };

static int standby = -1; /* its connection */
static sd_event_source *listener, *watcher;
static record turn;      /* what happened since it was handed over last */
static uint64_t numbers; /* of messages */
static struct {
    unsigned count;
    line *at[MOST_LINES];
} changed;

/* ---- The connection ----------------------------------------------------------------------------------------------------- */

static void leave(const char *why) {
    log_line(LOG_WARN, "the standby is gone: %s", why);
    watcher = sd_event_source_disable_unref(watcher);
    close(standby);
    standby = -1;
    record_free(&turn);
    for (unsigned i = 0; i < changed.count; i++)
        changed.at[i]->is_changed = false;
    changed.count = 0;
}

/* Octets go, with a descriptor if it is not -1. A standby that takes none for a while is given up, as lines can't wait for it. */
static bool is_sent(const uint8_t *octets, size_t length, int fd) {
    _Alignas(struct cmsghdr) char control[CMSG_SPACE(sizeof(int))] = {0};
    for (size_t at = 0; at < length;) {
        struct iovec part = {.iov_base = (void *)(uintptr_t)(octets + at), .iov_len = length - at};
        struct msghdr message = {.msg_iov = &part, .msg_iovlen = 1};
        struct pollfd room = {.fd = standby, .events = POLLOUT, .revents = 0};
        if (fd >= 0 && at == 0) {
            message.msg_control = control;
            message.msg_controllen = sizeof control;
            struct cmsghdr *head = CMSG_FIRSTHDR(&message);
            *head = (struct cmsghdr){.cmsg_level = SOL_SOCKET, .cmsg_type = SCM_RIGHTS, .cmsg_len = CMSG_LEN(sizeof fd)};
            memcpy(CMSG_DATA(head), &fd, sizeof fd);
        }
        ssize_t sent = sendmsg(standby, &message, MSG_DONTWAIT | MSG_NOSIGNAL);
        if (sent > 0)
            at += (size_t)sent;
        else if (sent < 0 && errno == EAGAIN && poll(&room, 1, PATIENCE_MS) > 0 && (room.revents & POLLOUT) != 0)
            continue;
        else if (errno != EINTR)
            return false;
    }
    return true;
}

/* A packet: its length, and its items. */
static void send_packet(record *items, int fd) {
    record all = {NULL, 0, 0, items->is_bad};
    record_put32(&all, (uint32_t)items->length);
    record_put(&all, items->octets, items->length);
    if (all.is_bad)
        leave("there is no memory");
    else if (!is_sent(all.octets, all.length, fd))
        leave(strerror(errno));
    record_free(&all);
    items->length = 0;
}

/* ---- What happens ------------------------------------------------------------------------------------------------------- */

void standby_made(const card *on, const standby_call *call) {
    if (standby < 0)
        return;
    record_put8(&turn, ITEM_CALL);
    record_put32(&turn, on->lines[0]->identifier);
    record_put8(&turn, call->kind);
    record_put64(&turn, call->now);
    record_put8(&turn, call->line);
    record_put8(&turn, call->request);
    record_put8(&turn, call->service);
    record_put8(&turn, call->tei);
    record_put16(&turn, (uint32_t)call->length);
    record_put(&turn, call->octets, call->length);
}

void standby_changed(line *own) {
    if (standby < 0 || own->is_changed)
        return;
    own->is_changed = true;
    changed.at[changed.count++] = own;
}

void standby_forget(const line *own) {
    unsigned left = 0;
    for (unsigned i = 0; i < changed.count; i++)
        if (changed.at[i] != own)
            changed.at[left++] = changed.at[i];
    changed.count = left;
}

static void put_message(record *to, const queued *it) {
    record_put8(to, ITEM_ADDED);
    record_put64(to, it->number);
    record_put32(to, it->identifier);
    record_put16(to, (uint32_t)it->length);
    record_put(to, it->octets, it->length);
}

void standby_added(queued *message) {
    message->number = ++numbers;
    if (standby >= 0)
        put_message(&turn, message);
}

void standby_gone(uint64_t number) {
    if (standby < 0)
        return;
    record_put8(&turn, ITEM_GONE);
    record_put64(&turn, number);
}

void standby_hand_over(void) {
    if (standby < 0)
        return;
    for (unsigned i = 0; i < changed.count; i++) {
        record_put8(&turn, ITEM_LINE);
        record_put32(&turn, changed.at[i]->identifier);
        state_put_line(&turn, changed.at[i]);
        changed.at[i]->is_changed = false;
    }
    changed.count = 0;
    if (turn.length > 0)
        send_packet(&turn, -1);
}

void standby_descriptor(const line *own, int fd) {
    if (standby < 0)
        return;
    standby_hand_over();
    record_put8(&turn, fd >= 0 ? ITEM_DESCRIPTOR : ITEM_NO_DESCRIPTOR);
    record_put32(&turn, own->identifier);
    if (standby >= 0)
        send_packet(&turn, fd);
}

void standby_begin_anew(void) {
    if (standby < 0)
        return;
    standby_hand_over();
    record_put8(&turn, ITEM_ANEW);
    if (standby >= 0)
        send_packet(&turn, -1);
    if (standby >= 0)
        leave("the configuration has changed");
}

/* ---- A standby joins ---------------------------------------------------------------------------------------------------- */

static void put_messages(record *to, const queue *from) {
    for (const queued *it = from->first; it != NULL; it = it->next)
        if (it->number != 0)
            put_message(to, it);
}

/* The state as it is now. While it is written, nobody is told of calls that are made for it. */
static void hand_state(int fd) {
    record first = {NULL, 0, 0, false};
    record_put8(&first, ITEM_STATE);
    record_put64(&first, loop_origin());
    state_put(&first);
    for (unsigned i = 0; i < server_count; i++)
        put_messages(&first, &servers[i]->held);
    for (unsigned i = 0; i < MOST_ASSOCIATIONS; i++)
        if (associations[i] != NULL)
            put_messages(&first, &associations[i]->out);
    standby = fd;
    send_packet(&first, -1);
    record_free(&first);
    for (unsigned i = 0; standby >= 0 && i < line_count; i++)
        if (lines[i]->port != NULL && lines[i]->below->descriptor(lines[i]) >= 0)
            standby_descriptor(lines[i], lines[i]->below->descriptor(lines[i]));
}

/* A standby says nothing: that it can be read is its end. */
static int is_gone(sd_event_source *source, int fd, uint32_t events, void *user) {
    (void)source;
    (void)fd;
    (void)events;
    (void)user;
    leave("it ended");
    return 0;
}

static int joins(sd_event_source *source, int socket, uint32_t events, void *user) {
    (void)source;
    (void)events;
    (void)user;
    int fd = loop_accept(socket, NULL, NULL);
    if (fd >= 0 && (standby >= 0 || sd_event_add_io(loop, &watcher, fd, EPOLLIN, is_gone, NULL) < 0)) {
        close(fd); /* there is one */
        return 0;
    }
    if (fd >= 0) {
        log_line(LOG_EVENT, "a standby joins");
        hand_state(fd);
    }
    return 0;
}

bool standby_serve(const configuration *from) {
    struct sockaddr_un at = {.sun_family = AF_UNIX};
    int fd = socket(AF_UNIX, SOCK_STREAM | SOCK_NONBLOCK | SOCK_CLOEXEC, 0);
    snprintf(at.sun_path, sizeof at.sun_path, "%s", from->standby);
    unlink(from->standby);
    if (fd >= 0 && bind(fd, (struct sockaddr *)&at, sizeof at) == 0 && listen(fd, 1) == 0
        && sd_event_add_io(loop, &listener, fd, EPOLLIN, joins, NULL) >= 0 && sd_event_source_set_io_fd_own(listener, true) >= 0)
        return true;
    log_line(LOG_FAULT, "%s: %s", from->standby, strerror(errno));
    if (fd >= 0)
        close(fd);
    return false;
}
