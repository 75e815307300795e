/* spans.c: two spans of DAHDI that are each other's end. See spans.h. It calls DAHDI by the names of its own header, and compares
 * those with what examples/c/dahdi.h has. */
#define _GNU_SOURCE

#include "spans.h"

#include <errno.h>
#include <fcntl.h>
#include <stddef.h>
#include <stdio.h>
#include <string.h>
#include <sys/ioctl.h>
#include <unistd.h>

#include <dahdi/user.h>

#include "dahdi.h"
#include "machine.h"

/* A compiler refuses an array of -1 elements. */
#define SAME(name, one, two) typedef char name##_is_the_same[(one) == (two) ? 1 : -1]
SAME(parameters, DAHDI_PARAMETERS, DAHDI_GET_PARAMS);
SAME(event, DAHDI_EVENT, DAHDI_GETEVENT);
SAME(buffers, DAHDI_SET_BUFFERS, DAHDI_SET_BUFINFO);
SAME(signalling, offsetof(dahdi_parameters, signalling), offsetof(struct dahdi_params, sigtype));
SAME(alarms, offsetof(dahdi_parameters, alarms), offsetof(struct dahdi_params, chan_alarms));
SAME(hdlc, DAHDI_IS_HDLC, DAHDI_SIG_HDLCFCS);
SAME(hard_hdlc, DAHDI_IS_HARD_HDLC, DAHDI_SIG_HARDHDLC);
SAME(alarm, DAHDI_ALARM, DAHDI_EVENT_ALARM);
SAME(alarm_ended, DAHDI_ALARM_ENDED, DAHDI_EVENT_NOALARM);
SAME(aborted, DAHDI_ABORTED, DAHDI_EVENT_ABORT);
SAME(overrun, DAHDI_OVERRUN, DAHDI_EVENT_OVERRUN);
SAME(bad_check, DAHDI_BAD_CHECK, DAHDI_EVENT_BADFCS);
SAME(removed, DAHDI_REMOVED, DAHDI_EVENT_REMOVED);
SAME(of_layer1, DAHDI_ALARMS_OF_LAYER1, (DAHDI_ALARM_RED | DAHDI_ALARM_BLUE | DAHDI_ALARM_NOTOPEN | DAHDI_ALARM_LOS
                                         | DAHDI_ALARM_LFA | DAHDI_ALARM_RECOVER));

enum { MOST_CHANNELS = 64 };

static const char *const addresses[] = {"1:0", "1:1"};

static bool is_ok(int result, const char *what) {
    if (result < 0)
        printf("spans: %s: %s\n", what, strerror(errno));
    return result >= 0;
}

bool spans_load(void) {
    return machine_load("/dahdi.ko", "auto_assign_spans=1") && machine_load("/dahdi_dynamic.ko", "")
           && machine_load("/dahdi_dynamic_loc.ko", "");
}

static struct dahdi_dynamic_span description_of(int span) {
    struct dahdi_dynamic_span it = {.driver = "loc", .numchans = 1};
    snprintf(it.addr, sizeof it.addr, "%s", addresses[span]);
    return it;
}

/* The number of the channel of a span, among all of DAHDI's; 0 if there is none. */
static int channel_of(int control, int span) {
    for (int number = 1; number < MOST_CHANNELS; number++) {
        struct dahdi_params it = {.channo = number};
        if (ioctl(control, DAHDI_GET_PARAMS, &it) == 0 && it.spanno == span)
            return number;
    }
    return 0;
}

bool span_begins(int span, char *path, unsigned room) {
    struct dahdi_dynamic_span it = description_of(span);
    int control = open("/dev/dahdi/ctl", O_RDWR | O_CLOEXEC);
    if (!is_ok(control, "/dev/dahdi/ctl"))
        return false;
    bool good = is_ok(ioctl(control, DAHDI_DYNAMIC_CREATE, &it), "a span");
    snprintf(path, room, "/dev/dahdi/chan/%03d/001", it.spanno);
    struct dahdi_chanconfig mode = {.chan = channel_of(control, it.spanno), .sigtype = DAHDI_SIG_HDLCFCS};
    good = good && is_ok(ioctl(control, DAHDI_CHANCONFIG, &mode), "the mode of a channel")
           && is_ok(ioctl(control, DAHDI_STARTUP, &it.spanno), "the start of a span");
    close(control);
    return good;
}

bool span_ends(int span) {
    struct dahdi_dynamic_span it = description_of(span);
    int control = open("/dev/dahdi/ctl", O_RDWR | O_CLOEXEC);
    bool good = is_ok(control, "/dev/dahdi/ctl") && is_ok(ioctl(control, DAHDI_DYNAMIC_DESTROY, &it), "the end of a span");
    close(control);
    return good;
}

int span_open(const char *path) {
    struct dahdi_bufferinfo buffers = {.numbufs = 8, .bufsize = 1024};
    int file = open(path, O_RDWR | O_NONBLOCK | O_CLOEXEC);
    if (is_ok(file, path))
        is_ok(ioctl(file, DAHDI_SET_BUFINFO, &buffers), "buffers");
    return file;
}

int span_event(int file) {
    int event = 0;
    return ioctl(file, DAHDI_GETEVENT, &event) == 0 ? event : 0;
}
