/* loop.c: the loop, and its time. See loop.h. */
#define _GNU_SOURCE

#include "loop.h"

#include <errno.h>
#include <fcntl.h>
#include <stddef.h>
#include <time.h>
#include <unistd.h>

#include "log.h"

enum { MICROSECONDS = 1000, ACCURACY = 1000 };

sd_event *loop;
static uint64_t origin; /* of the system's time, in milliseconds */
static uint64_t base;   /* the moment that it was then */

/* It goes on while the machine sleeps, as terminals do. */
static uint64_t system_time(void) {
    struct timespec time;
    clock_gettime(CLOCK_BOOTTIME, &time);
    return (uint64_t)time.tv_sec * 1000 + (uint64_t)time.tv_nsec / 1000000;
}

bool loop_begin(void) {
    origin = system_time();
    base = 0;
    return sd_event_new(&loop) >= 0;
}

void loop_set_now(uint64_t moment) {
    origin = system_time();
    base = moment;
}

uint64_t loop_origin(void) {
    return base - origin;
}

void loop_set_origin(uint64_t from) {
    loop_set_now(from + system_time());
}

uint64_t loop_now(void) {
    return base + system_time() - origin;
}

int loop_accept(int socket, struct sockaddr *peer, socklen_t *length) {
    static int spare = -1;
    if (spare < 0)
        spare = open("/dev/null", O_RDONLY | O_CLOEXEC);
    int fd = accept4(socket, peer, length, SOCK_NONBLOCK | SOCK_CLOEXEC);
    if (fd >= 0 || (errno != EMFILE && errno != ENFILE) || spare < 0)
        return fd;
    close(spare);
    spare = -1;
    fd = accept4(socket, NULL, NULL, SOCK_CLOEXEC);
    if (fd >= 0)
        close(fd);
    log_limited(LOG_WARN, "there are no descriptors left, and a connection is closed");
    return -1;
}

sd_event_source *loop_timer(sd_event_time_handler_t due, void *user) {
    sd_event_source *timer = NULL;
    if (sd_event_add_time(loop, &timer, CLOCK_BOOTTIME, UINT64_MAX, ACCURACY, due, user) < 0
        || sd_event_source_set_enabled(timer, SD_EVENT_OFF) < 0)
        return sd_event_source_unref(timer);
    return timer;
}

void loop_set_timer(sd_event_source *timer, uint64_t moment) {
    uint64_t due = (moment > base ? moment - base + origin : origin) * MICROSECONDS, was = 0;
    int is_on = SD_EVENT_OFF;
    if (moment == LOOP_NEVER) {
        sd_event_source_set_enabled(timer, SD_EVENT_OFF);
        return;
    }
    if (sd_event_source_get_enabled(timer, &is_on) > 0 && sd_event_source_get_time(timer, &was) >= 0 && was == due)
        return;
    sd_event_source_set_time(timer, due);
    sd_event_source_set_enabled(timer, SD_EVENT_ONESHOT);
}
