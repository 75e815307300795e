/*
 * misdn.h: what programs say to mISDN, the ISDN stack of the Linux kernel, and what it says to them: a socket takes and gives
 * messages, each of a primitive, an identification, and octets. It is of the kernel's include/linux/mISDNif.h, which no package
 * of headers has for programs.
 */
#ifndef MISDN_H
#define MISDN_H

#include <stdint.h>
#include <sys/ioctl.h>
#include <sys/socket.h>

enum { MISDN_FAMILY = 34 }; /* of addresses: AF_ISDN */

/* The protocols of its sockets: layer 1 of a basic access (S0) or a primary rate access (E1), as terminal (TE) or network (NT),
 * and the kernel's own layer 2. */
enum {
    MISDN_TE_S0 = 1,
    MISDN_NT_S0 = 2,
    MISDN_TE_E1 = 3,
    MISDN_NT_E1 = 4,
    MISDN_LAPD_TE = 16,
    MISDN_LAPD_NT = 17
};

typedef struct {
    sa_family_t family;
    uint8_t device, channel, sapi, tei; /* the channel is 0: the D-channel */
} misdn_address;

typedef struct {
    uint32_t primitive;
    uint32_t id; /* of layer 2: the SAPI, the TEI times 256, and the kernel's channel of the link times 65,536 */
} misdn_head;

/* Primitives between layer 1 and layer 2. One frame of a program is with layer 1 at a time: MISDN_SENT says that it went. */
enum {
    MISDN_ACTIVATE = 0x0101,
    MISDN_ACTIVE = 0x0102,
    MISDN_INACTIVE = 0x0202,
    MISDN_SEND = 0x2001,
    MISDN_RECEIVED = 0x2002,
    MISDN_SENT = 0x6002
};

/* Primitives between the kernel's layer 2 and layer 3. */
enum {
    MISDN_INFORMATION = 0x0008, /* a TEI was assigned, or removed: it is 127 then */
    MISDN_ESTABLISH = 0x1004,
    MISDN_ESTABLISH_INDICATION = 0x1008,
    MISDN_ESTABLISH_CONFIRM = 0x5008,
    MISDN_RELEASE = 0x1104,
    MISDN_RELEASE_INDICATION = 0x1108,
    MISDN_RELEASE_CONFIRM = 0x5108,
    MISDN_DATA = 0x3004,
    MISDN_DATA_INDICATION = 0x3008,
    MISDN_UNIT = 0x3104,
    MISDN_UNIT_INDICATION = 0x3108,
    MISDN_LAYER1_INACTIVE = 0x0602
};

/* Of a socket of MISDN_LAPD_NT: layer 3 begins without links of before. */
#define MISDN_CLEAR_LAYER2 _IOR('I', 70, int)

#endif
