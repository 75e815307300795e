/* metrics.c: HTTP by libmicrohttpd, whose sockets are watched in the loop. See metrics.h. */
#define _GNU_SOURCE

#include "metrics.h"

#include <errno.h>
#include <microhttpd.h>
#include <stdio.h>
#include <stdlib.h>
#include <string.h>
#include <sys/epoll.h>

#include "exposition.h"
#include "log.h"
#include "loop.h"

enum { MOST_CONNECTIONS = 16, PATIENCE_SECONDS = 10 };

static struct MHD_Daemon *server;
static sd_event_source *source, *timer;
static bool is_ready;

void metrics_set_ready(bool is) {
    is_ready = is;
}

static enum MHD_Result answer(struct MHD_Connection *to, unsigned status, char *text, size_t length) {
    struct MHD_Response *response = MHD_create_response_from_buffer(length, text, MHD_RESPMEM_MUST_FREE);
    if (response == NULL) {
        free(text);
        return MHD_NO;
    }
    MHD_add_response_header(response, MHD_HTTP_HEADER_CONTENT_TYPE, "text/plain; version=0.0.4; charset=utf-8");
    enum MHD_Result result = MHD_queue_response(to, status, response);
    MHD_destroy_response(response);
    return result;
}

static enum MHD_Result say(struct MHD_Connection *to, unsigned status, const char *words) {
    char *text = strdup(words);
    return text == NULL ? MHD_NO : answer(to, status, text, strlen(text));
}

static enum MHD_Result asks(void *user, struct MHD_Connection *from, const char *url, const char *method, const char *version,
                            const char *data, size_t *data_length, void **context) {
    static int seen;
    size_t length = 0;
    (void)user;
    (void)version;
    (void)data;
    if (*context == NULL) { /* the head has come, and the answer follows once all has */
        *context = &seen;
        return MHD_YES;
    }
    if (*data_length != 0) { /* what comes after the head is passed over */
        *data_length = 0;
        return MHD_YES;
    }
    if (strcmp(method, MHD_HTTP_METHOD_GET) != 0 && strcmp(method, MHD_HTTP_METHOD_HEAD) != 0)
        return say(from, MHD_HTTP_METHOD_NOT_ALLOWED, "only GET and HEAD\n");
    if (strcmp(url, "/ready") == 0)
        return is_ready ? say(from, MHD_HTTP_OK, "ready\n") : say(from, MHD_HTTP_SERVICE_UNAVAILABLE, "not ready\n");
    if (strcmp(url, "/metrics") != 0)
        return say(from, MHD_HTTP_NOT_FOUND, "there are /metrics and /ready\n");
    char *text = exposition(&length);
    return text == NULL ? MHD_NO : answer(from, MHD_HTTP_OK, text, length);
}

static void run(void) {
    MHD_UNSIGNED_LONG_LONG left;
    (void)MHD_run(server);
    loop_set_timer(timer, MHD_get_timeout(server, &left) == MHD_YES ? loop_now() + left : LOOP_NEVER);
}

static int has_come(sd_event_source *from, int fd, uint32_t events, void *user) {
    (void)from;
    (void)fd;
    (void)events;
    (void)user;
    run();
    return 0;
}

static int is_due(sd_event_source *from, uint64_t time, void *user) {
    (void)from;
    (void)time;
    (void)user;
    run();
    return 0;
}

bool metrics_begin(const configuration *from) {
    if (from->metrics.count == 0)
        return true;
    const struct sockaddr *address = (const struct sockaddr *)(const void *)&from->metrics.at[0].address;
    unsigned flags = MHD_USE_EPOLL | (address->sa_family == AF_INET6 ? MHD_USE_IPv6 : 0u);
    server = MHD_start_daemon(flags, 0, NULL, NULL, asks, NULL, MHD_OPTION_SOCK_ADDR, address,
                              MHD_OPTION_CONNECTION_LIMIT, (unsigned)MOST_CONNECTIONS,
                              MHD_OPTION_CONNECTION_TIMEOUT, (unsigned)PATIENCE_SECONDS, MHD_OPTION_END);
    const union MHD_DaemonInfo *info = server == NULL ? NULL : MHD_get_daemon_info(server, MHD_DAEMON_INFO_EPOLL_FD);
    timer = loop_timer(is_due, NULL);
    if (info != NULL && timer != NULL && sd_event_add_io(loop, &source, info->epoll_fd, EPOLLIN, has_come, NULL) >= 0)
        return true;
    log_line(LOG_FAULT, "the address of `metrics` can't be taken: %s", strerror(errno));
    return false;
}

void metrics_end(void) {
    source = sd_event_source_disable_unref(source);
    timer = sd_event_source_disable_unref(timer);
    if (server != NULL)
        MHD_stop_daemon(server);
    server = NULL;
}
