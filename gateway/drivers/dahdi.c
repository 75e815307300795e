/*
 * dahdi.c: lines of DAHDI, the drivers of the telephony cards of the Asterisk PBX. DAHDI has layer 1, and HDLC with its check, by
 * its software or by the hardware (dchan or hardhdlc in its system.conf). A device takes and gives a frame a write and a read,
 * with two octets after it for the check. Alarms say whether layer 1 is there, and a fault may come in place of a frame.
 */
#define _GNU_SOURCE

#include "dahdi.h"

#include <errno.h>
#include <fcntl.h>
#include <poll.h>
#include <stdio.h>
#include <stdlib.h>
#include <string.h>
#include <sys/epoll.h>
#include <unistd.h>

#include "../lines.h"
#include "../log.h"
#include "../loop.h"
#include "../standby.h"
#include "../watches.h"
#include "driver.h"

enum { CHECK_OCTETS = 2, BUFFERS = 8, BUFFER_OCTETS = 1024, MOST_OF_TURN = 16 };
#define CHOOSE_CHANNEL _IOW(0xDA, 38, int) /* DAHDI_SPECIFY of dahdi/user.h */
enum { EVENT_WAITS = 500 }; /* errno of a read or a write, as long as an event waits */
enum { SETTLE_MS = 20, AGAIN_MS = 1000 }; /* a frame that goes sooner after the open is lost; how often a lost device is tried */

typedef struct {
    line *of;
    int fd; /* -1: the device is gone */
    watch watch;
    sd_event_source *timer;
} port;

static bool fails(const line *own, const char *what) {
    uint32_t channel = configuration_number(&own->of->is.device, own->place);
    log_line(LOG_FAULT, "line %u: DAHDI's channel %u: %s: %s", own->identifier, channel, what, strerror(errno));
    return false;
}

/* The device is gone, and is tried again later. */
static void leave(port *own, const char *why) {
    fails(own->of, why);
    watch_end(&own->watch);
    close(own->fd);
    own->fd = -1;
    standby_descriptor(own->of, -1);
    loop_set_timer(own->timer, loop_now() + AGAIN_MS);
    line_down(own->of);
}

/* ---- Events ------------------------------------------------------------------------------------------------------------- */

/* Layer 1 is there if no alarm says otherwise. One of the other end alone (yellow) does not. */
static void look_at_layer1(port *own) {
    dahdi_parameters it;
    memset(&it, 0, sizeof it);
    if (ioctl(own->fd, DAHDI_PARAMETERS, &it) != 0)
        leave(own, "it is gone");
    else if ((it.alarms & DAHDI_ALARMS_OF_LAYER1) != 0)
        line_down(own->of);
    else
        line_up(own->of);
}

static void happened(port *own, int event) {
    switch (event) {
    case DAHDI_ALARM:
    case DAHDI_ALARM_ENDED: look_at_layer1(own); break;
    case DAHDI_ABORTED: line_failed(own->of, LAPD_ABORT); break;
    case DAHDI_BAD_CHECK: line_failed(own->of, LAPD_FCS); break;
    case DAHDI_OVERRUN: log_limited(LOG_MORE, "line %u: a frame was longer than a buffer", own->of->identifier); break;
    case DAHDI_REMOVED:
        errno = ENODEV;
        leave(own, "it is gone");
        break;
    default: break;
    }
}

/* All events that wait. */
static void take_events(port *own) {
    for (int event = DAHDI_NOTHING; own->fd >= 0 && ioctl(own->fd, DAHDI_EVENT, &event) == 0 && event != DAHDI_NOTHING;)
        happened(own, event);
}

/* ---- Frames ------------------------------------------------------------------------------------------------------------- */

static void watch_anew(port *own, bool for_room) {
    watch_set(&own->watch, EPOLLIN | EPOLLPRI | (for_room ? EPOLLOUT : 0u));
}

static bool has_room(const port *own) {
    struct pollfd it = {.fd = own->fd, .events = POLLOUT, .revents = 0};
    return poll(&it, 1, 0) == 1 && (it.revents & POLLOUT) != 0;
}

/* A frame goes, with room for its check after it. If an event waits, it is taken first. */
static driver_result send_frame(line *own, const uint8_t *frame, size_t length) {
    port *to = own->port;
    uint8_t octets[LAPD_MOST_FRAME + CHECK_OCTETS] = {0};
    memcpy(octets, frame, length);
    if (to->fd >= 0 && !has_room(to)) {
        watch_anew(to, true);
        return DRIVER_FULL;
    }
    while (to->fd >= 0 && write(to->fd, octets, length + CHECK_OCTETS) < 0) {
        if (errno != EVENT_WAITS)
            break; /* it is lost, as any on a line */
        take_events(to);
    }
    return DRIVER_SENT;
}

static void activate(line *own) {
    (void)own; /* DAHDI's lines are always active */
}

/* The frames that have come. */
static void take_frames(port *own) {
    uint8_t frame[BUFFER_OCTETS];
    for (unsigned i = 0; own->fd >= 0 && i < MOST_OF_TURN; i++) {
        ssize_t length = read(own->fd, frame, sizeof frame);
        if (length > CHECK_OCTETS)
            line_frame(own->of, frame, (size_t)length - CHECK_OCTETS);
        else if (length < 0 && errno != EAGAIN && errno != EINTR && errno != EVENT_WAITS)
            leave(own, "it gives no frame");
        if (length <= 0)
            return;
    }
}

static void is_ready(void *user, uint32_t events) {
    port *own = user;
    if ((events & EPOLLPRI) != 0)
        take_events(own);
    if (own->fd >= 0 && (events & EPOLLIN) != 0)
        take_frames(own);
    if (own->fd >= 0 && (events & EPOLLOUT) != 0) {
        watch_anew(own, false);
        line_has_room(own->of);
    }
    if (own->fd >= 0 && (events & (EPOLLERR | EPOLLHUP)) != 0 && (events & (EPOLLPRI | EPOLLIN)) == 0) {
        errno = ENODEV;
        leave(own, "it is gone");
    }
}

/* ---- A line begins and ends --------------------------------------------------------------------------------------------- */

static bool is_hdlc(int signalling) {
    return (signalling & DAHDI_IS_HDLC) == DAHDI_IS_HDLC || (signalling & DAHDI_IS_HARD_HDLC) == DAHDI_IS_HARD_HDLC;
}

/* The device of a channel. Without its name, as in a container, the channel is named to the device that stands for all. */
static int open_device(int channel) {
    char path[32];
    snprintf(path, sizeof path, "/dev/dahdi/%d", channel);
    int fd = open(path, O_RDWR | O_NONBLOCK | O_CLOEXEC);
    if (fd >= 0 || errno != ENOENT)
        return fd;
    fd = open("/dev/dahdi/channel", O_RDWR | O_NONBLOCK | O_CLOEXEC);
    if (fd >= 0 && ioctl(fd, CHOOSE_CHANNEL, &channel) != 0) {
        close(fd);
        fd = -1;
    }
    return fd;
}

/* The channel is opened, and has a few buffers: what waits in them counts as sent. */
static const char *open_channel(port *own) {
    dahdi_buffers buffers = {.buffers = BUFFERS, .octets = BUFFER_OCTETS};
    dahdi_parameters it;
    int channel = (int)configuration_number(&own->of->of->is.device, own->of->place);
    memset(&it, 0, sizeof it);
    own->fd = own->of->adopted >= 0 ? own->of->adopted : open_device(channel);
    own->of->adopted = -1;
    if (own->fd < 0)
        return "it can't be opened";
    if (ioctl(own->fd, DAHDI_PARAMETERS, &it) != 0)
        return "it is no channel of DAHDI";
    errno = EINVAL;
    if (!is_hdlc(it.signalling))
        return "it is not in HDLC mode with its check (dchan or hardhdlc)";
    if (ioctl(own->fd, DAHDI_SET_BUFFERS, &buffers) != 0)
        return "it takes no buffers";
    return watch_begin(&own->watch, own->fd, EPOLLIN | EPOLLPRI, is_ready, own) ? NULL : "it can't be watched";
}

static const char *open_whole(port *own) {
    const char *fault = open_channel(own);
    int why = errno;
    if (fault != NULL && own->fd >= 0) {
        watch_end(&own->watch);
        close(own->fd);
        own->fd = -1;
    }
    if (fault == NULL)
        standby_descriptor(own->of, own->fd);
    loop_set_timer(own->timer, loop_now() + (fault == NULL ? SETTLE_MS : AGAIN_MS));
    errno = why;
    return fault;
}

/* The device has settled since it was opened; or it was gone, and is tried again. */
static int is_due(sd_event_source *source, uint64_t time, void *user) {
    port *own = user;
    (void)source;
    (void)time;
    if (own->fd >= 0)
        look_at_layer1(own);
    else
        (void)open_whole(own);
    return 0;
}

static int descriptor(const line *own) {
    return ((const port *)own->port)->fd;
}

static bool begin(const configuration *from) {
    (void)from;
    return true;
}

static void close_line(line *own) {
    port *it = own->port;
    watch_end(&it->watch);
    sd_event_source_disable_unref(it->timer);
    if (it->fd >= 0)
        close(it->fd);
    free(it);
    own->port = NULL;
}

static bool open_line(line *own) {
    port *it = calloc(1, sizeof *it);
    const char *fault = "there is no memory";
    if (it == NULL)
        return fails(own, fault);
    own->port = it;
    it->of = own;
    it->fd = -1;
    it->timer = loop_timer(is_due, it);
    if (it->timer != NULL)
        fault = open_whole(it);
    if (fault == NULL)
        return true;
    fails(own, fault);
    close_line(own);
    return false;
}

const driver driver_dahdi = {"dahdi", begin, open_line, close_line, send_frame, descriptor, activate};
