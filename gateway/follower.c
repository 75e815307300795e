/* follower.c: a standby, which follows the active process until that is gone. See standby.h. */
#define _GNU_SOURCE

#include <errno.h>
#include <fcntl.h>
#include <stdio.h>
#include <string.h>
#include <sys/epoll.h>
#include <sys/file.h>
#include <sys/socket.h>
#include <sys/un.h>
#include <unistd.h>

#include "cards.h"
#include "lines.h"
#include "log.h"
#include "loop.h"
#include "record.h"
#include "servers.h"
#include "standby.h"
#include "standby_form.h"
#include "state.h"

enum { AGAIN_MS = 100, LOCK_TRIES = 300, ROOM = 1 << 16, MOST_DESCRIPTORS = 64 };

static const configuration *configured;
static void (*goes_on_then)(void);
static char **words;
static int lock = -1;
static sd_event_source *source, *again;
static record in;      /* octets that came, and are no whole packet yet */
static queue messages; /* that wait for servers, each with its number */
static struct {
    unsigned count;
    int at[MOST_DESCRIPTORS];
} descriptors; /* that came, and whose items are not read yet */

void standby_set_words(char **of_program) {
    words = of_program;
}

/* The program anew, with the same words, since what it has followed is no more what is so. */
static void begin_anew(const char *why) {
    log_line(LOG_EVENT, "the standby begins anew: %s", why);
    execv("/proc/self/exe", words);
    log_line(LOG_FAULT, "it can't: %s", strerror(errno));
    sd_event_exit(loop, 1);
}

/* ---- What the active process did ---------------------------------------------------------------------------------------- */

static void make(lapd_card *on, const standby_call *it) {
    lapd_report report;
    uint8_t frame[LAPD_MOST_FRAME], place = it->request;
    size_t length;
    switch (it->kind) {
    case STANDBY_TIME: (void)!lapd_fall_due(on, it->now, &report); break;
    case STANDBY_FRAME: (void)!lapd_frame(on, it->line, it->octets, it->length, &report); break;
    case STANDBY_FAILED: (void)!lapd_frame_failed(on, it->line, it->request, &report); break;
    case STANDBY_ASK:
        (void)!lapd_request_with(on, it->line, it->request, it->service, it->tei, it->octets, it->length, &report);
        break;
    case STANDBY_DOWN: (void)!lapd_line_down(on, it->line, &place, &report); break;
    case STANDBY_TAKE: (void)!lapd_next_frame(on, it->line, frame, sizeof frame, &length, &report); break;
    }
}

static void hear_call(record_reader *from) {
    line *first = line_of(record_get32(from)); /* of its card */
    standby_call it = {.kind = (standby_call_kind)record_get8(from)};
    it.now = record_get64(from);
    it.line = record_get8(from);
    it.request = record_get8(from);
    it.service = record_get8(from);
    it.tei = record_get8(from);
    it.length = record_get16(from);
    it.octets = record_get(from, it.length);
    if (first != NULL && !from->is_bad)
        make(&first->card->own, &it);
    else
        from->is_bad = true;
}

static void hear_line(record_reader *from) {
    line *of = line_of(record_get32(from));
    if (of == NULL)
        from->is_bad = true;
    else
        state_get_line(from, of);
}

static void hear_added(record_reader *from) {
    uint64_t number = record_get64(from);
    uint32_t identifier = record_get32(from);
    size_t length = record_get16(from);
    const uint8_t *octets = record_get(from, length);
    queued *it = octets == NULL ? NULL : queue_add(&messages, identifier, octets, length);
    if (it != NULL)
        it->mark = (uint32_t)number;
}

static void hear_gone(record_reader *from) {
    uint32_t number = (uint32_t)record_get64(from);
    queue kept = {NULL, NULL, 0, 0};
    if (messages.first != NULL && messages.first->mark == number) { /* mostly it is the first */
        queue_drop(&messages);
        return;
    }
    while (messages.first != NULL)
        if (messages.first->mark == number)
            queue_drop(&messages);
        else
            queue_move(&messages, &kept);
    messages = kept;
}

static void hear_descriptor(record_reader *from, bool is_there) {
    line *of = line_of(record_get32(from));
    int fd = -1;
    if (is_there && descriptors.count > 0) {
        fd = descriptors.at[0];
        memmove(descriptors.at, descriptors.at + 1, --descriptors.count * sizeof *descriptors.at);
    }
    if (of == NULL) {
        from->is_bad = true;
        close(fd);
        return;
    }
    if (of->adopted >= 0)
        close(of->adopted);
    of->adopted = fd;
}

static void hear_state(record_reader *from) {
    loop_set_origin(record_get64(from));
    if (!state_get(from, true))
        from->is_bad = true;
    for (unsigned i = 0; i < group_count; i++)
        if (!groups[i]->is_restored)
            from->is_bad = true; /* the configurations differ */
    for (unsigned i = 0; i < server_count; i++)
        queue_clear(&servers[i]->held); /* these messages come by their numbers */
    if (!from->is_bad)
        log_line(LOG_EVENT, "the standby follows the active process, at %u lines", line_count);
}

/* A packet; false: it says what can't be, or that all begins anew. */
static bool hear(record_reader *from) {
    while (from->left > 0 && !from->is_bad)
        switch (record_get8(from)) {
        case ITEM_STATE: hear_state(from); break;
        case ITEM_CALL: hear_call(from); break;
        case ITEM_LINE: hear_line(from); break;
        case ITEM_ADDED: hear_added(from); break;
        case ITEM_GONE: hear_gone(from); break;
        case ITEM_DESCRIPTOR: hear_descriptor(from, true); break;
        case ITEM_NO_DESCRIPTOR: hear_descriptor(from, false); break;
        default: return false;
        }
    return !from->is_bad;
}

/* ---- Whether the active process is gone --------------------------------------------------------------------------------- */

static bool is_locked(void) {
    char path[PATH_ROOM + 8];
    snprintf(path, sizeof path, "%s.lock", configured->standby);
    if (lock < 0)
        lock = open(path, O_RDWR | O_CREAT | O_CLOEXEC, 0600);
    return lock >= 0 && flock(lock, LOCK_EX | LOCK_NB) == 0;
}

/* Messages that no process has vouched for wait for the next one. */
static void keep_messages(void) {
    while (messages.first != NULL) {
        server *of = server_of(messages.first->identifier);
        if (of == NULL)
            queue_drop(&messages);
        else {
            standby_added(messages.first);
            queue_move(&messages, &of->held);
        }
    }
}

static void take_over(void) {
    for (unsigned i = 0; i < LOCK_TRIES; i++) {
        if (is_locked()) {
            log_line(LOG_EVENT, "the active process is gone, and the standby goes on");
            source = sd_event_source_disable_unref(source);
            record_free(&in);
            keep_messages();
            goes_on_then();
            return;
        }
        usleep(1000); /* its descriptors are closed one after the other */
    }
    begin_anew("the active process has left it");
}

/* ---- What comes --------------------------------------------------------------------------------------------------------- */

static void keep_descriptors(struct msghdr *message) {
    for (struct cmsghdr *it = CMSG_FIRSTHDR(message); it != NULL; it = CMSG_NXTHDR(message, it)) {
        if (it->cmsg_level != SOL_SOCKET || it->cmsg_type != SCM_RIGHTS)
            continue;
        for (size_t at = 0; at + sizeof(int) <= it->cmsg_len - CMSG_LEN(0); at += sizeof(int)) {
            int fd;
            memcpy(&fd, CMSG_DATA(it) + at, sizeof fd);
            if (descriptors.count < MOST_DESCRIPTORS)
                descriptors.at[descriptors.count++] = fd;
            else
                close(fd);
        }
    }
}

/* All packets that are whole; false: one of them is not as it has to be. */
static bool hear_all(void) {
    size_t at = 0;
    bool is_good = true;
    while (is_good && in.length - at >= 4) {
        record_reader head = {in.octets + at, 4, false};
        size_t length = record_get32(&head);
        if (in.length - at - 4 < length)
            break;
        record_reader items = {in.octets + at + 4, length, false};
        is_good = hear(&items);
        at += 4 + length;
    }
    memmove(in.octets, in.octets + at, in.length - at);
    in.length -= at;
    return is_good;
}

static int has_come(sd_event_source *from, int fd, uint32_t events, void *user) {
    _Alignas(struct cmsghdr) char control[CMSG_SPACE(MOST_DESCRIPTORS * sizeof(int))];
    uint8_t *at = record_room(&in, ROOM);
    struct iovec part = {.iov_base = at, .iov_len = ROOM};
    struct msghdr message = {.msg_iov = &part, .msg_iovlen = 1, .msg_control = control, .msg_controllen = sizeof control};
    (void)from;
    (void)events;
    (void)user;
    ssize_t length = at == NULL ? 0 : recvmsg(fd, &message, MSG_DONTWAIT | MSG_CMSG_CLOEXEC);
    if (length < 0 && (errno == EAGAIN || errno == EINTR))
        return 0;
    if (length <= 0) {
        take_over();
        return 0;
    }
    keep_descriptors(&message);
    record_add(&in, (size_t)length);
    if (!hear_all())
        begin_anew("the active process has another state, or another configuration");
    return 0;
}

/* ---- Its start ---------------------------------------------------------------------------------------------------------- */

static bool is_connected(void) {
    struct sockaddr_un at = {.sun_family = AF_UNIX};
    int fd = socket(AF_UNIX, SOCK_STREAM | SOCK_CLOEXEC, 0);
    snprintf(at.sun_path, sizeof at.sun_path, "%s", configured->standby);
    if (fd >= 0 && connect(fd, (struct sockaddr *)&at, sizeof at) == 0
        && sd_event_add_io(loop, &source, fd, EPOLLIN, has_come, NULL) >= 0 && sd_event_source_set_io_fd_own(source, true) >= 0)
        return true;
    if (fd >= 0)
        close(fd);
    return false;
}

/* Nobody hands anything over yet: perhaps the active process is gone already, or has another standby. */
static int tries(sd_event_source *from, uint64_t time, void *user) {
    (void)from;
    (void)time;
    (void)user;
    if (is_locked())
        goes_on_then();
    else if (!is_connected())
        loop_set_timer(again, loop_now() + AGAIN_MS);
    return 0;
}

standby_role standby_begin(const configuration *from, bool may_wait, void (*goes_on)(void)) {
    configured = from;
    goes_on_then = goes_on;
    if (is_locked())
        return STANDBY_ACTIVE;
    if (lock < 0 || !may_wait) {
        const char *why = lock < 0 ? strerror(errno) : "another process is active (--standby waits for its end)";
        log_line(LOG_FAULT, "%s: %s", from->standby, why);
        return STANDBY_FAULT;
    }
    again = loop_timer(tries, NULL);
    if (again == NULL)
        return STANDBY_FAULT;
    log_line(LOG_EVENT, "the standby waits beside the active process");
    loop_set_timer(again, loop_now());
    return STANDBY_WAITS;
}
