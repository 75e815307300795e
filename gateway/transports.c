/* transports.c: SCTP and Unix sockets. See transports.h. */
#define _GNU_SOURCE

#include "transports.h"

#include <arpa/inet.h>
#include <errno.h>
#include <netinet/sctp.h>
#include <stdio.h>
#include <string.h>
#include <sys/epoll.h>
#include <sys/socket.h>
#include <sys/un.h>
#include <unistd.h>

#include "iua.h"
#include "log.h"
#include "loop.h"
#include "messages.h"

enum { STREAMS = 65, MOST_STREAMS = 1024, BACKLOG = 32, MOST_CONTROL = 256, HEAD_ROOM = 512 };

static sd_event_source *sctp_source, *unix_source;
static char unix_path[PATH_ROOM];

static bool fails(const char *what) {
    log_line(LOG_FAULT, "%s: %s", what, strerror(errno));
    return false;
}

/* ---- Messages ----------------------------------------------------------------------------------------------------------- */

/* A message of SCTP says on which stream it goes. */
static void put_stream(struct msghdr *message, void *control, size_t room, uint16_t stream) {
    struct sctp_sndinfo info = {.snd_sid = stream, .snd_ppid = htonl(IUA_PAYLOAD)};
    memset(control, 0, room);
    message->msg_control = control;
    message->msg_controllen = room;
    struct cmsghdr *head = CMSG_FIRSTHDR(message);
    head->cmsg_level = IPPROTO_SCTP;
    head->cmsg_type = SCTP_SNDINFO;
    head->cmsg_len = CMSG_LEN(sizeof info);
    memcpy(CMSG_DATA(head), &info, sizeof info);
}

static ssize_t send_by_sctp(int fd, const queued *it) {
    _Alignas(struct cmsghdr) char control[CMSG_SPACE(sizeof(struct sctp_sndinfo))];
    struct iovec part = {.iov_base = (void *)(uintptr_t)it->octets, .iov_len = it->length};
    struct msghdr message = {.msg_iov = &part, .msg_iovlen = 1};
    put_stream(&message, control, sizeof control, it->stream);
    return sendmsg(fd, &message, MSG_DONTWAIT | MSG_NOSIGNAL);
}

bool transport_send(association *own, const queued *it) {
    ssize_t sent = own->is_sctp ? send_by_sctp(own->fd, it) : send(own->fd, it->octets, it->length, MSG_DONTWAIT | MSG_NOSIGNAL);
    if (sent >= 0)
        return true;
    if (errno != EAGAIN && errno != EINTR && errno != ENOBUFS)
        association_break(own, strerror(errno));
    return false;
}

static struct sctp_rcvinfo info_of(struct msghdr *message) {
    struct sctp_rcvinfo info = {.rcv_ppid = 0};
    for (struct cmsghdr *it = CMSG_FIRSTHDR(message); it != NULL; it = CMSG_NXTHDR(message, it))
        if (it->cmsg_level == IPPROTO_SCTP && it->cmsg_type == SCTP_RCVINFO)
            memcpy(&info, CMSG_DATA(it), sizeof info);
    return info;
}

/* The end of an association that was shut here comes as a notification alone. */
static void take_notification(association *own, const uint8_t *octets, size_t length) {
    struct sctp_assoc_change change;
    if (length < sizeof change)
        return;
    memcpy(&change, octets, sizeof change);
    if (change.sac_type == SCTP_ASSOC_CHANGE && (change.sac_state == SCTP_SHUTDOWN_COMP || change.sac_state == SCTP_COMM_LOST))
        association_break(own, change.sac_state == SCTP_COMM_LOST ? "the other end is lost" : "it was shut down");
}

/* It is a message, a notification, or of another protocol. */
static void take_from_sctp(association *own, struct msghdr *message, const uint8_t *octets, size_t length) {
    if ((message->msg_flags & MSG_NOTIFICATION) != 0) {
        take_notification(own, octets, length);
        return;
    }
    struct sctp_rcvinfo info = info_of(message);
    if (ntohl(info.rcv_ppid) == IUA_PAYLOAD)
        message_came(own, info.rcv_sid, octets, length);
}

bool transport_receive(association *own) {
    static uint8_t octets[IUA_LONGEST + HEAD_ROOM]; /* a message that is too long is cut off, and its length no longer fits */
    _Alignas(struct cmsghdr) char control[MOST_CONTROL];
    struct iovec part = {.iov_base = octets, .iov_len = sizeof octets};
    struct msghdr message = {.msg_iov = &part, .msg_iovlen = 1, .msg_control = control, .msg_controllen = sizeof control};
    ssize_t length = own->is_sctp ? recvmsg(own->fd, &message, MSG_DONTWAIT) : recv(own->fd, octets, sizeof octets, MSG_DONTWAIT);
    if (length < 0 && (errno == EAGAIN || errno == EINTR))
        return false;
    if (length <= 0)
        association_break(own, length == 0 ? "it was closed" : strerror(errno));
    else if (own->is_sctp)
        take_from_sctp(own, &message, octets, (size_t)length);
    else
        message_came(own, 0, octets, (size_t)length);
    return own->broken == NULL;
}

/* ---- Processes join ----------------------------------------------------------------------------------------------------- */

static void set(int socket, int option, const void *value, socklen_t length) {
    if (setsockopt(socket, IPPROTO_SCTP, option, value, length) != 0)
        log_line(LOG_WARN, "SCTP takes no option %d: %s", option, strerror(errno));
}

/* The kernel's heartbeats each second, and four losses end an association: some five seconds, where its own values take minutes.
 * */
static void set_sctp(int socket) {
    int on = 1, off = 0;
    struct sctp_initmsg init = {.sinit_num_ostreams = STREAMS, .sinit_max_instreams = MOST_STREAMS};
    struct sctp_rtoinfo times = {.srto_initial = 500, .srto_min = 100, .srto_max = 1000};
    struct sctp_assocparams limits = {.sasoc_asocmaxrxt = 4};
    struct sctp_event_subscribe events = {.sctp_association_event = 1};
    struct sctp_paddrparams path = {.spp_hbinterval = 1000, .spp_pathmaxrxt = 4, .spp_flags = SPP_HB_ENABLE};
    set(socket, SCTP_I_WANT_MAPPED_V4_ADDR, &off, sizeof off); /* an address of IPv4 is told as one */
    set(socket, SCTP_NODELAY, &on, sizeof on);
    set(socket, SCTP_RECVRCVINFO, &on, sizeof on);
    set(socket, SCTP_INITMSG, &init, sizeof init);
    set(socket, SCTP_RTOINFO, &times, sizeof times);
    set(socket, SCTP_ASSOCINFO, &limits, sizeof limits);
    set(socket, SCTP_PEER_ADDR_PARAMS, &path, sizeof path);
    set(socket, SCTP_EVENTS, &events, sizeof events);
}

static const char *address_text(const struct sockaddr_storage *address, char *text, socklen_t room) {
    const void *at = address->ss_family == AF_INET ? (const void *)&((const struct sockaddr_in *)(const void *)address)->sin_addr
                                                   : (const void *)&((const struct sockaddr_in6 *)(const void *)address)->sin6_addr;
    return inet_ntop(address->ss_family, at, text, room) == NULL ? "?" : text;
}

static int joins(sd_event_source *source, int socket, uint32_t events, void *user) {
    bool is_sctp = source == sctp_source;
    struct sockaddr_storage peer = {.ss_family = AF_UNSPEC};
    socklen_t length = sizeof peer;
    char text[INET6_ADDRSTRLEN];
    unsigned streams = 1;
    (void)events;
    (void)user;
    int fd = loop_accept(socket, (struct sockaddr *)&peer, &length);
    if (fd < 0)
        return 0;
    if (is_sctp) {
        struct sctp_status status;
        socklen_t room = sizeof status;
        set_sctp(fd);
        if (getsockopt(fd, IPPROTO_SCTP, SCTP_STATUS, &status, &room) == 0)
            streams = status.sstat_outstrms;
    }
    if (!association_begin(fd, is_sctp, streams, is_sctp ? address_text(&peer, text, sizeof text) : "the Unix socket")) {
        log_line(LOG_WARN, "there is no room for another association");
        close(fd);
    }
    return 0;
}

static bool is_same(const struct sockaddr *one, const struct sockaddr_storage *other) {
    if (one->sa_family != other->ss_family)
        return false;
    if (one->sa_family == AF_INET)
        return memcmp(&((const struct sockaddr_in *)(const void *)one)->sin_addr,
                      &((const struct sockaddr_in *)(const void *)other)->sin_addr, sizeof(struct in_addr)) == 0;
    return memcmp(&((const struct sockaddr_in6 *)(const void *)one)->sin6_addr,
                  &((const struct sockaddr_in6 *)(const void *)other)->sin6_addr, sizeof(struct in6_addr)) == 0;
}

bool transport_has_peer(const association *own, const configuration_addresses *addresses) {
    struct sockaddr *peers = NULL;
    int count = sctp_getpaddrs(own->fd, 0, &peers);
    bool has = false;
    const char *at = (const char *)peers;
    for (int i = 0; i < count; i++) {
        const struct sockaddr *peer = (const struct sockaddr *)(const void *)at;
        for (unsigned j = 0; j < addresses->count; j++)
            has = has || is_same(peer, &addresses->at[j].address);
        at += peer->sa_family == AF_INET ? sizeof(struct sockaddr_in) : sizeof(struct sockaddr_in6);
    }
    if (count > 0)
        sctp_freepaddrs(peers);
    return has;
}

/* ---- The sockets -------------------------------------------------------------------------------------------------------- */

static bool listens(int socket, sd_event_source **source) {
    return listen(socket, BACKLOG) == 0 && sd_event_add_io(loop, source, socket, EPOLLIN, joins, NULL) >= 0
           && sd_event_source_set_io_fd_own(*source, true) >= 0;
}

/* All addresses of an association are its own: with one of IPv6 the socket is of IPv6, and takes those of IPv4, too. */
static bool open_sctp(const configuration *from) {
    char packed[MOST_ADDRESSES * sizeof(struct sockaddr_in6)];
    size_t length = 0;
    int on = 1, family = AF_INET;
    for (unsigned i = 0; i < from->sctp.count; i++) {
        struct sockaddr_storage it = from->sctp.at[i].address;
        if (it.ss_family == AF_INET6)
            family = AF_INET6;
        if (it.ss_family == AF_INET)
            ((struct sockaddr_in *)(void *)&it)->sin_port = htons((uint16_t)from->port);
        else
            ((struct sockaddr_in6 *)(void *)&it)->sin6_port = htons((uint16_t)from->port);
        memcpy(packed + length, &it, from->sctp.at[i].length);
        length += from->sctp.at[i].length;
    }
    int fd = socket(family, SOCK_STREAM | SOCK_NONBLOCK | SOCK_CLOEXEC, IPPROTO_SCTP);
    if (fd < 0)
        return fails("there is no SCTP");
    set_sctp(fd);
    setsockopt(fd, SOL_SOCKET, SO_REUSEADDR, &on, sizeof on);
    if (sctp_bindx(fd, (struct sockaddr *)(void *)packed, (int)from->sctp.count, SCTP_BINDX_ADD_ADDR) != 0
        || !listens(fd, &sctp_source)) {
        close(fd);
        return fails("the addresses of `sctp` can't be taken");
    }
    return true;
}

static bool open_unix(const configuration *from) {
    struct sockaddr_un at = {.sun_family = AF_UNIX};
    int fd = socket(AF_UNIX, SOCK_SEQPACKET | SOCK_NONBLOCK | SOCK_CLOEXEC, 0);
    snprintf(at.sun_path, sizeof at.sun_path, "%s", from->path);
    unlink(from->path);
    if (fd < 0 || bind(fd, (struct sockaddr *)&at, sizeof at) != 0 || !listens(fd, &unix_source)) {
        close(fd);
        return fails(from->path);
    }
    snprintf(unix_path, sizeof unix_path, "%s", from->path);
    return true;
}

bool transports_begin(const configuration *from) {
    return (from->sctp.count == 0 || open_sctp(from)) && (from->path[0] == 0 || open_unix(from));
}

void transports_end(void) {
    sctp_source = sd_event_source_disable_unref(sctp_source);
    unix_source = sd_event_source_disable_unref(unix_source);
    if (unix_path[0] != 0)
        unlink(unix_path);
    unix_path[0] = 0;
}
