/* capture.c: captures. See capture.h. Every number has its high octet first. */
#define _GNU_SOURCE

#include "capture.h"

#include <errno.h>
#include <fcntl.h>
#include <stdio.h>
#include <string.h>
#include <sys/socket.h>
#include <time.h>
#include <unistd.h>

#include "lines.h"
#include "log.h"
#include "octets.h"

/* Of pcapng: link type 177 is LAPD with Linux's pseudo-header. */
enum { BLOCK_SECTION = 0x0A0D0D0A, BLOCK_INTERFACE = 1, BLOCK_PACKET = 6, MAGIC = 0x1A2B3C4D, LINK_TYPE = 177, OPTION_NAME = 2 };
enum { PSEUDO_HEADER = 16, FROM_OTHER = 0, TO_OTHER = 4, HARDWARE = 8445, PROTOCOL = 0x0030 };
/* Of GSMTAP: a frame of LAPD of an E1 or T1 line; the flag is for what a network receives. */
enum { TAP_HEAD = 16, TAP_VERSION = 2, TAP_LINE = 0x13, TAP_LAPD = 1, TAP_UPLINK = 0x4000 };
enum { LONGEST = LAPD_MOST_FRAME + 1, BLOCK_ROOM = 512 };

struct capture {
    configuration_capture is;
    int file, socket; /* or -1 */
};

static capture captures[MOST_CAPTURES];
static unsigned count;

/* ---- Blocks of a file --------------------------------------------------------------------------------------------------- */

typedef struct {
    uint8_t octets[BLOCK_ROOM];
    size_t length;
} block;

static void put32(block *to, uint32_t value) {
    octets_put32(to->octets + to->length, value);
    to->length += 4;
}

static void put_octets(block *to, const void *octets, size_t length) {
    size_t padded = (length + 3) / 4 * 4;
    memset(to->octets + to->length, 0, padded);
    memcpy(to->octets + to->length, octets, length);
    to->length += padded;
}

static void begin_block(block *to, uint32_t kind) {
    to->length = 0;
    put32(to, kind);
    put32(to, 0); /* the length, which comes with the end */
}

/* The block goes to the file. If that takes it no more, the capture has no file any more. */
static void write_block(capture *own, block *it) {
    octets_put32(it->octets + 4, (uint32_t)it->length + 4);
    put32(it, (uint32_t)it->length + 4);
    if (write(own->file, it->octets, it->length) == (ssize_t)it->length)
        return;
    log_line(LOG_WARN, "capture %s: %s: %s", own->is.name, own->is.file, strerror(errno));
    close(own->file);
    own->file = -1;
}

static void put_section(capture *own) {
    block it;
    begin_block(&it, BLOCK_SECTION);
    put32(&it, MAGIC);
    put32(&it, 1 << 16); /* version 1.0 */
    put32(&it, UINT32_MAX);
    put32(&it, UINT32_MAX); /* its length is not known */
    write_block(own, &it);
}

/* Each line is an interface, with its identifier as its name. */
static void put_interface(capture *own, uint32_t identifier) {
    block it;
    char name[32];
    int length = snprintf(name, sizeof name, "line %u", identifier);
    begin_block(&it, BLOCK_INTERFACE);
    put32(&it, LINK_TYPE << 16);
    put32(&it, 0); /* no limit of a packet's length */
    put32(&it, OPTION_NAME << 16 | (uint32_t)length);
    put_octets(&it, name, (size_t)length);
    put32(&it, 0); /* the end of options */
    write_block(own, &it);
}

/* ---- A frame ------------------------------------------------------------------------------------------------------------ */

static uint64_t microseconds(void) {
    struct timespec time;
    clock_gettime(CLOCK_REALTIME, &time);
    return (uint64_t)time.tv_sec * 1000000 + (uint64_t)time.tv_nsec / 1000;
}

/* The place of a line in the list of a capture. */
static uint32_t interface_of(const capture *own, uint32_t identifier) {
    uint32_t before = 0;
    for (unsigned i = 0; i < own->is.lines.count; i++) {
        if (own->is.lines.range[i].first <= identifier && identifier <= own->is.lines.range[i].last)
            return before + identifier - own->is.lines.range[i].first;
        before += own->is.lines.range[i].last - own->is.lines.range[i].first + 1;
    }
    return 0;
}

static void put_packet(capture *own, const line *of, bool is_sent, const uint8_t *frame, size_t length) {
    block it;
    uint8_t octets[PSEUDO_HEADER + LONGEST] = {0};
    uint64_t now = microseconds();
    octets_put16(octets, is_sent ? TO_OTHER : FROM_OTHER);
    octets_put16(octets + 2, HARDWARE);
    octets_put16(octets + 4, 1); /* an address of one octet: whose side the capture is */
    octets[6] = line_side(of) == LAPD_NETWORK;
    octets_put16(octets + 14, PROTOCOL);
    memcpy(octets + PSEUDO_HEADER, frame, length);
    begin_block(&it, BLOCK_PACKET);
    put32(&it, interface_of(own, of->identifier));
    put32(&it, (uint32_t)(now >> 32));
    put32(&it, (uint32_t)now);
    put32(&it, (uint32_t)(PSEUDO_HEADER + length));
    put32(&it, (uint32_t)(PSEUDO_HEADER + length));
    put_octets(&it, octets, PSEUDO_HEADER + length);
    write_block(own, &it);
}

/* The number of a frame is the line's identifier. One that finds no room in the socket is left out. */
static void send_packet(const capture *own, const line *of, bool is_sent, const uint8_t *frame, size_t length) {
    uint8_t octets[TAP_HEAD + LONGEST] = {TAP_VERSION, TAP_HEAD / 4, TAP_LINE};
    bool is_uplink = is_sent != (line_side(of) == LAPD_NETWORK);
    octets_put16(octets + 4, is_uplink ? TAP_UPLINK : 0);
    octets_put32(octets + 8, of->identifier);
    octets[12] = TAP_LAPD;
    memcpy(octets + TAP_HEAD, frame, length);
    (void)!send(own->socket, octets, TAP_HEAD + length, MSG_DONTWAIT);
}

void capture_frame(capture *own, const line *of, bool is_sent, const uint8_t *frame, size_t length) {
    if (length > LONGEST)
        length = LONGEST;
    if (own->file >= 0)
        put_packet(own, of, is_sent, frame, length);
    if (own->socket >= 0)
        send_packet(own, of, is_sent, frame, length);
}

/* ---- Their start and their end ------------------------------------------------------------------------------------------ */

capture *capture_of(uint32_t identifier) {
    for (unsigned i = 0; i < count; i++)
        if (configuration_has(&captures[i].is.lines, identifier))
            return &captures[i];
    return NULL;
}

static bool fails(const capture *own, const char *what) {
    log_line(LOG_FAULT, "capture %s: %s: %s", own->is.name, what, strerror(errno));
    return false;
}

static bool open_capture(capture *own) {
    if (own->is.file[0] != 0) {
        own->file = open(own->is.file, O_WRONLY | O_CREAT | O_TRUNC | O_CLOEXEC, 0640);
        if (own->file < 0)
            return fails(own, own->is.file);
        put_section(own);
        for (uint64_t i = 0; own->file >= 0 && i < configuration_count(&own->is.lines); i++)
            put_interface(own, configuration_number(&own->is.lines, (uint32_t)i));
    }
    if (own->is.gsmtap.count != 0) {
        const configuration_address *to = &own->is.gsmtap.at[0];
        own->socket = socket(to->address.ss_family, SOCK_DGRAM | SOCK_CLOEXEC | SOCK_NONBLOCK, 0);
        if (own->socket < 0 || connect(own->socket, (const struct sockaddr *)&to->address, to->length) != 0)
            return fails(own, "its address can't be reached");
    }
    return true;
}

bool captures_begin(const configuration *from) {
    bool is_good = true;
    captures_end();
    for (unsigned i = 0; is_good && i < from->captures; i++) {
        captures[count] = (capture){.is = from->capture[i], .file = -1, .socket = -1};
        is_good = open_capture(&captures[count++]);
    }
    for (unsigned i = 0; i < line_count; i++)
        lines[i]->capture = capture_of(lines[i]->identifier);
    return is_good;
}

void captures_end(void) {
    for (unsigned i = 0; i < count; i++) {
        if (captures[i].file >= 0)
            close(captures[i].file);
        if (captures[i].socket >= 0)
            close(captures[i].socket);
    }
    count = 0;
    for (unsigned i = 0; i < line_count; i++)
        lines[i]->capture = NULL;
}
