/*
 * dahdi.h: what dahdi.c asks of DAHDI, the drivers of telephony cards of the Asterisk PBX. It is of dahdi/user.h, which Debian's
 * dahdi-source has; here it stands, so that the program compiles without that. tests/kernel compares the two.
 */
#ifndef DAHDI_H
#define DAHDI_H

#include <stdint.h>
#include <sys/ioctl.h>

/* How the drivers keep frames of a channel: as many buffers, each as large as this. */
typedef struct {
    int send_policy, receive_policy; /* 0: each buffer is taken at once */
    int buffers, octets;
    int full_to_read, full_to_send; /* they are told */
} dahdi_buffers;

/* What a channel is. */
typedef struct {
    int channel, span, place, signalling, capabilities;
    int unread_before[7];
    char name[40];
    int unread_behind[11];
    uint32_t alarms; /* of its span; 0 if layer 1 is there */
} dahdi_parameters;

enum {
    DAHDI_IS_HDLC = 1 << 9 | 1 << 8 | 1 << 7, /* signalling: HDLC with its check, by DAHDI itself */
    DAHDI_IS_HARD_HDLC = 1 << 19 | 1 << 7,    /* or by the hardware */
    /* alarms: recovering, red, blue, not open, no signal, no frame; of the other end alone (yellow) is none of them */
    DAHDI_ALARMS_OF_LAYER1 = 1 << 0 | 1 << 3 | 1 << 4 | 1 << 5 | 1 << 8 | 1 << 9
};

/* Events of a channel. */
enum {
    DAHDI_NOTHING = 0,
    DAHDI_ALARM = 4,
    DAHDI_ALARM_ENDED = 5,
    DAHDI_ABORTED = 6, /* in place of a frame: seven 1s */
    DAHDI_OVERRUN = 7, /* a frame came that is longer than a buffer */
    DAHDI_BAD_CHECK = 8,
    DAHDI_REMOVED = 20 /* the device is gone */
};

#define DAHDI_PARAMETERS _IOWR(0xDA, 5, dahdi_parameters)
#define DAHDI_EVENT _IOR(0xDA, 8, int)
#define DAHDI_SET_BUFFERS _IOW(0xDA, 27, dahdi_buffers)

#endif
