/* wires.c: the ways of frames between our cards and the kernel's devices. See wires.h. */
#define _GNU_SOURCE

#include "wires.h"

#include <errno.h>
#include <netinet/in.h>
#include <stdio.h>
#include <stdlib.h>
#include <string.h>
#include <sys/socket.h>
#include <unistd.h>

#include "chance.h"
#include "faults.h"
#include "l1oip.h"
#include "misdn.h"
#include "plan.h"

enum { ROOM = 1 << 20, LONGEST_FRAME = 300, LONGEST_MESSAGE = 2100, HEAD = 8, SHORT_HEAD = 4 };
/* An l1oip packet: its type says which head it has, and of which rate it is. */
enum { LONG_HEAD = 0x10, PRIMARY = 0x20, D_CHANNEL_BASIC = 3, D_CHANNEL_PRIMARY = 16 };

typedef struct {
    int file;
    bool is_full;
    struct sockaddr_in device;
    uint16_t number; /* of the next packet */
} wire;

static wire wires[MOST_WIRES];
static wire_counts counts;
static bool is_settling;

/* ---- Sockets ------------------------------------------------------------------------------------------------------ */

static void need(bool is_there, const char *what) {
    if (is_there)
        return;
    printf("wires: %s: %s\n", what, strerror(errno));
    exit(1);
}

static void make_room(int file) {
    int room = ROOM;
    need(setsockopt(file, SOL_SOCKET, SO_RCVBUFFORCE, &room, sizeof room) == 0, "room of a socket");
}

int isdn_socket(int protocol, int device, int sapi, int tei) {
    int clear = 1, file = socket(MISDN_FAMILY, SOCK_DGRAM | SOCK_CLOEXEC, protocol);
    misdn_address at = {.family = MISDN_FAMILY, .device = (uint8_t)device, .sapi = (uint8_t)sapi, .tei = (uint8_t)tei};
    need(file >= 0 && bind(file, (struct sockaddr *)&at, sizeof at) == 0, "a socket of mISDN");
    if (protocol == MISDN_LAPD_NT)
        ioctl(file, MISDN_CLEAR_LAYER2, &clear);
    make_room(file);
    return file;
}

static bool send_message(int file, uint32_t primitive, const uint8_t *octets, size_t length) {
    struct {
        misdn_head head;
        uint8_t octets[LONGEST_FRAME];
    } message = {.head = {.primitive = primitive}};
    if (length > 0)
        memcpy(message.octets, octets, length);
    return send(file, &message, sizeof message.head + length, 0) >= 0;
}

/* A frame as a packet of l1oip; without octets it says that layer 1 is there. */
static bool send_packet(wire *to, const uint8_t *frame, size_t length) {
    uint8_t packet[HEAD + LONGEST_FRAME] = {LONG_HEAD | (is_primary() ? PRIMARY : 0), 0, 0, 0, L1OIP_ID,
                                            is_primary() ? D_CHANNEL_PRIMARY : D_CHANNEL_BASIC, (uint8_t)(to->number >> 8),
                                            (uint8_t)to->number};
    to->number++;
    if (length > 0)
        memcpy(packet + HEAD, frame, length);
    return sendto(to->file, packet, HEAD + length, 0, (struct sockaddr *)&to->device, sizeof to->device) >= 0;
}

static void open_layer1(int at) {
    int basic = ours_is_network() ? MISDN_NT_S0 : MISDN_TE_S0, primary = ours_is_network() ? MISDN_NT_E1 : MISDN_TE_E1;
    wires[at].file = isdn_socket(is_primary() ? primary : basic, 2 * at, 0, 0);
    need(send_message(wires[at].file, MISDN_ACTIVATE, NULL, 0), "layer 1");
}

static void open_packets(int at) {
    struct sockaddr_in own = {.sin_family = AF_INET, .sin_port = htons((uint16_t)(L1OIP_TEST_PORT + at)),
                              .sin_addr = {htonl(INADDR_LOOPBACK)}};
    wires[at].file = socket(AF_INET, SOCK_DGRAM | SOCK_CLOEXEC, 0);
    need(wires[at].file >= 0 && bind(wires[at].file, (struct sockaddr *)&own, sizeof own) == 0, "a socket of packets");
    make_room(wires[at].file);
    wires[at].device = own;
    wires[at].device.sin_port = htons((uint16_t)(L1OIP_DEVICE_PORT + at));
    need(send_packet(&wires[at], NULL, 0), "a packet");
}

void wires_open(void) {
    memset(wires, 0, sizeof wires);
    memset(&counts, 0, sizeof counts);
    is_settling = false;
    for (int at = 0; at < plan.devs; at++)
        if (plan.layer1)
            open_layer1(at);
        else
            open_packets(at);
}

void wires_close(void) {
    for (int at = 0; at < plan.devs; at++)
        close(wires[at].file);
}

int wires_file(int at) {
    return wires[at].file;
}

wire_counts wires_count(void) {
    return counts;
}

/* ---- Frames ------------------------------------------------------------------------------------------------------- */

void wires_settle(void) {
    is_settling = true;
}

static bool is_lost(void) {
    bool is_one = (int)chance(100) < plan.loss && !is_settling;
    counts.lost += is_one;
    return is_one;
}

bool wires_lose_heard(int at, const uint8_t *frame, size_t length) {
    bool is_one = is_lost();
    counts.heard += !is_one;
    note_frame(is_one ? "<- lost" : "<-", at, frame, length);
    return is_one;
}

bool wires_are_full(void) {
    return plan.layer1 && wires[0].is_full;
}

void wires_send(const uint8_t *frame, size_t length, void (*reached)(int wire, const uint8_t *frame, size_t length)) {
    counts.sent++;
    for (int at = 0; at < plan.devs; at++) {
        bool is_one = is_lost(), is_sent = true;
        note_frame(is_one ? "-> lost" : "->", at, frame, length);
        if (is_one)
            continue;
        reached(at, frame, length);
        if (plan.layer1)
            is_sent = wires[at].is_full = send_message(wires[at].file, MISDN_SEND, frame, length);
        else
            is_sent = send_packet(&wires[at], frame, length);
        if (!is_sent)
            note("wire %d takes no frame: %s", at, strerror(errno));
    }
}

/* A message of layer 1. */
static void take_message(int at, const uint8_t *message, size_t length, void (*came)(int wire, const uint8_t *frame, size_t length),
                         void (*has_room)(void)) {
    misdn_head head;
    if (length < sizeof head)
        return;
    memcpy(&head, message, sizeof head);
    if (head.primitive == MISDN_RECEIVED) {
        came(at, message + sizeof head, length - sizeof head);
    } else if (head.primitive == MISDN_SENT) {
        wires[at].is_full = false;
        has_room();
    }
}

static void take_packet(int at, const uint8_t *packet, size_t length, void (*came)(int wire, const uint8_t *frame, size_t length)) {
    size_t head = packet[0] & LONG_HEAD ? HEAD : SHORT_HEAD;
    if (length > head)
        came(at, packet + head, length - head);
}

void wires_read(void (*came)(int wire, const uint8_t *frame, size_t length), void (*has_room)(void)) {
    uint8_t in[LONGEST_MESSAGE];
    for (int at = 0; at < plan.devs; at++)
        for (ssize_t length; (length = recv(wires[at].file, in, sizeof in, MSG_DONTWAIT)) > 0;)
            if (plan.layer1)
                take_message(at, in, (size_t)length, came, has_room);
            else
                take_packet(at, in, (size_t)length, came);
}
