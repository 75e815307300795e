/*
 * dahdi.c: a card on a D-channel of DAHDI, the drivers of the telephony cards of the Asterisk PBX. DAHDI has layer 1, and HDLC
 * with its check, by its software or by the hardware (dchan or hardhdlc in its system.conf). The D-channel ends here. A device
 * takes and gives a frame a write and a read, with two octets after it for the check. Its events are read in between: alarms
 * say whether layer 1 is there, and a fault may come in place of a frame. dchannel.h says what the card and its layer 3 do. No
 * other program, as a PBX, may have the channel.
 *
 *     cc -O2 -I .. -o dahdi dahdi.c dchannel.c linecard.c trace.c pcap.c ../lapd.c
 *     dahdi [--trace] DEVICE nt|te|nt-e1|te-e1 [RECORD [CAPTURE]]
 *
 * DEVICE is the channel's: /dev/dahdi/16. Standard error tells what layer 3 is told, and whether layer 1 is there. With --trace
 * it has a log of each frame, note, expiry and state as well (trace.c). With RECORD, all that happens is written there as a
 * script of lapdsim.5: `lapdsim run < RECORD` then shows the same. With CAPTURE, the frames of both ways are written there
 * for Wireshark (pcap.c). It ends by a signal (SIGINT, SIGTERM), or if the device goes.
 *
 * What was tried: all four sides over spans of DAHDI that are joined in software (dahdi_dynamic_loc), with HDLC by DAHDI's
 * software, against libpri (tests/kernel). It was never tried on hardware, nor with hardhdlc.
 */
#define _POSIX_C_SOURCE 200809L

#include "dahdi.h"

#include <errno.h>
#include <fcntl.h>
#include <string.h>
#include <unistd.h>

#include "dchannel.h"

enum { CHECK_OCTETS = 2, BUFFERS = 8, BUFFER_OCTETS = 1024 };
enum { EVENT_WAITS = 500 }; /* errno of a read or a write, as long as an event waits */

static const char help[] =
    "\n"
    "A card on a D-channel of DAHDI, as the network (nt) or a terminal (te) of a basic access, or as either side of a primary\n"
    "rate access. It answers calls; messages of other protocols go back. Standard error tells what layer 3 is told.\n"
    "\n"
    "  --trace  a log of each frame, note, expiry and state on standard error\n"
    "  DEVICE   the channel, in HDLC mode with its check: /dev/dahdi/16\n"
    "  RECORD   a file for all that happens, as a script: lapdsim run < RECORD shows the same\n"
    "  CAPTURE  a file for the frames of both ways, for Wireshark\n";

static dchannel own = {.card = {.program = "dahdi", .card = LAPD_CARD_NONE}};
static int channel = -1;

static bool fails(const char *what) {
    fprintf(stderr, "dahdi: %s: %s: %s\n", own.device, what, strerror(errno));
    return false;
}

/* ---- The device --------------------------------------------------------------------------------------------------- */

static bool is_hdlc(int signalling) {
    return (signalling & DAHDI_IS_HDLC) == DAHDI_IS_HDLC || (signalling & DAHDI_IS_HARD_HDLC) == DAHDI_IS_HARD_HDLC;
}

/* The channel is opened, and has a few buffers: what waits in them counts as sent. */
static bool opens(void) {
    dahdi_buffers buffers = {.buffers = BUFFERS, .octets = BUFFER_OCTETS};
    dahdi_parameters it;
    memset(&it, 0, sizeof it);
    channel = open(own.device, O_RDWR | O_NONBLOCK);
    if (channel < 0)
        return fails("it can't be opened");
    if (ioctl(channel, DAHDI_PARAMETERS, &it) != 0)
        return fails("it is no channel of DAHDI");
    if (!is_hdlc(it.signalling)) {
        fprintf(stderr, "dahdi: %s: it is not in HDLC mode with its check (dchan or hardhdlc)\n", own.device);
        return false;
    }
    return ioctl(channel, DAHDI_SET_BUFFERS, &buffers) == 0 || fails("it takes no buffers");
}

/* Layer 1 is there if no alarm says otherwise. One of the other end alone (yellow) does not. */
static bool look_at_layer1(void) {
    dahdi_parameters it;
    memset(&it, 0, sizeof it);
    if (ioctl(channel, DAHDI_PARAMETERS, &it) != 0)
        return fails("the device is gone");
    return it.alarms & DAHDI_ALARMS_OF_LAYER1 ? dchannel_down(&own) : dchannel_up(&own);
}

/* ---- Events ------------------------------------------------------------------------------------------------------- */

static bool happened(int event) {
    switch (event) {
    case DAHDI_ALARM:
    case DAHDI_ALARM_ENDED: return look_at_layer1();
    case DAHDI_ABORTED: return dchannel_failed(&own, LAPD_ABORT);
    case DAHDI_BAD_CHECK: return dchannel_failed(&own, LAPD_FCS);
    case DAHDI_OVERRUN: fprintf(stderr, "0 a frame was longer than a buffer\n"); return true;
    case DAHDI_REMOVED: errno = ENODEV; return fails("the device is gone");
    default: return true;
    }
}

/* All events that wait. */
static bool take_events(void) {
    for (int event = DAHDI_NOTHING; ioctl(channel, DAHDI_EVENT, &event) == 0 && event != DAHDI_NOTHING;)
        if (!happened(event))
            return false;
    return true;
}

/* ---- Frames ------------------------------------------------------------------------------------------------------- */

/* Whether the device has room for a frame. */
static bool has_room(void) {
    struct pollfd line = {.fd = channel, .events = POLLOUT, .revents = 0};
    return poll(&line, 1, 0) == 1 && (line.revents & POLLOUT) != 0;
}

/* A frame goes, with room for its check after it. If an event waits, it is taken first. One for which there is no room after
 * all is as lost on the line. */
static bool send_frame(uint8_t *frame, size_t length) {
    memset(frame + length, 0, CHECK_OCTETS);
    while (write(channel, frame, length + CHECK_OCTETS) < 0) {
        if (errno == EAGAIN)
            return true;
        if (errno != EVENT_WAITS)
            return fails("it takes no frame");
        if (!take_events())
            return false;
    }
    return true;
}

/* The frames that wait go, as long as there is room. */
static bool give(void) {
    uint8_t frame[LAPD_MOST_FRAME + CHECK_OCTETS];
    for (size_t length = 1; length > 0 && has_room();)
        if (!dchannel_next(&own, frame, &length) || (length > 0 && !send_frame(frame, length)))
            return false;
    return true;
}

/* The frames that have come. */
static bool take(void) {
    uint8_t frame[BUFFER_OCTETS];
    ssize_t length;
    while ((length = read(channel, frame, sizeof frame)) > 0)
        if (length > CHECK_OCTETS && !dchannel_frame(&own, frame, (size_t)length - CHECK_OCTETS))
            return false;
    return length == 0 || errno == EAGAIN || errno == EVENT_WAITS || fails("it gives no frame");
}

/* Serves the line until a signal ends it. */
static bool serve(void) {
    uint32_t waiting;
    struct pollfd line = {.fd = channel, .events = POLLIN | POLLPRI, .revents = 0};
    while (give()) {
        bool is_full = own.is_up && lapd_next_waiting(&own.card.card, 0, &waiting) == LAPD_OK;
        line.events = is_full ? POLLIN | POLLPRI | POLLOUT : POLLIN | POLLPRI;
        if (!linecard_wait(&own.card, &line, -1))
            return false;
        if (dchannel_is_over())
            return true;
        if (((line.revents & POLLPRI) != 0 && !take_events()) || ((line.revents & POLLIN) != 0 && !take()))
            return false;
        if ((line.revents & (POLLERR | POLLHUP | POLLNVAL)) != 0) {
            errno = ENODEV;
            return fails("the device is gone");
        }
    }
    return false;
}

int main(int words, char **word) {
    int status;
    if (!dchannel_reads(&own, words, word, help, &status))
        return status;
    bool is_good = opens() && dchannel_begin(&own) && look_at_layer1() && serve();
    return !(dchannel_end(&own) && is_good);
}
