/* kernel.c: the kernel's layer 2, and what its layer 3 knows of its links. See kernel.h. */
#define _GNU_SOURCE

#include "kernel.h"

#include <errno.h>
#include <string.h>
#include <unistd.h>

#include "faults.h"
#include "misdn.h"
#include "plan.h"
#include "streams.h"
#include "wires.h"

enum { LONGEST_IN = 2100, FIRST_FIXED_TEI = 10, PACKET_SAPI = 16, REMOVE = 6, ALL = 255, MANAGEMENT = 63 };

kernel_link kernel_links[MOST_KERNEL_LINKS];
int kernel_link_count;
static unsigned doubled, deactivations;

/* ---- Sockets ------------------------------------------------------------------------------------------------------ */

static bool is_basic_network(void) {
    return plan.side == KERNEL_NT;
}

static void add_link(int file, int device, int channel, int service, int tei) {
    kernel_link link = {.file = file, .device = device, .channel = channel, .service = service, .tei = tei};
    kernel_links[kernel_link_count++] = link;
}

/* With a socket of layer 1 of ours the kernel's device is the other one of a pair. */
static int device_of(int wire) {
    return plan.layer1 ? 2 * wire + 1 : wire;
}

static void open_user(int number) {
    int service = plan.sapi16 && number % 2 == 1, wire = number % plan.devs;
    int fixed = is_primary() ? 0 : plan.fixed ? FIRST_FIXED_TEI + number : GROUP;
    int protocol = plan.side == KERNEL_NT_E1 ? MISDN_LAPD_NT : MISDN_LAPD_TE;
    add_link(isdn_socket(protocol, device_of(wire), service ? PACKET_SAPI : 0, fixed), wire, 0, service, fixed);
}

void kernel_open(void) {
    kernel_link_count = 0;
    doubled = deactivations = 0;
    if (is_basic_network()) {
        add_link(isdn_socket(MISDN_LAPD_NT, device_of(0), 0, GROUP), device_of(0), 0, 0, GROUP);
        return;
    }
    for (int i = 0; i < (is_primary() ? 1 + plan.sapi16 : plan.terms); i++)
        open_user(i);
}

int kernel_files(void) {
    return is_basic_network() ? 1 : kernel_link_count;
}

void kernel_close(void) {
    for (int i = 0; i < kernel_files(); i++)
        close(kernel_links[i].file);
}

/* ---- What layer 3 asks for ---------------------------------------------------------------------------------------- */

static const char *request_text(uint32_t primitive) {
    return primitive == MISDN_ESTABLISH ? "establish request" : primitive == MISDN_RELEASE ? "release request" : "unit data";
}

static void ask_at(const kernel_link *link, const misdn_address *to, uint32_t primitive, const uint8_t *octets, size_t length) {
    struct {
        misdn_head head;
        uint8_t octets[LONGEST_MESSAGE];
    } out = {.head = {.primitive = primitive}};
    if (length > 0)
        memcpy(out.octets, octets, length);
    if (sendto(link->file, &out, sizeof out.head + length, 0, (const struct sockaddr *)to, to == NULL ? 0 : sizeof *to) < 0)
        note("the kernel refuses %x: %s", (unsigned)primitive, strerror(errno));
    if (primitive != MISDN_DATA)
        note("   the kernel's layer 3 %d (tei %d): %s", (int)(link - kernel_links), link->tei, request_text(primitive));
}

void kernel_ask(kernel_link *link, uint32_t primitive, const uint8_t *octets, size_t length) {
    misdn_address to = {.family = MISDN_FAMILY, .device = (uint8_t)link->device, .channel = (uint8_t)link->channel};
    ask_at(link, is_basic_network() ? &to : NULL, primitive, octets, length);
}

void kernel_ask_group(const uint8_t *octets, size_t length) {
    misdn_address to = {.family = MISDN_FAMILY, .device = (uint8_t)kernel_links[0].device};
    ask_at(&kernel_links[0], &to, MISDN_UNIT, octets, length);
}

/* ---- What it is told ---------------------------------------------------------------------------------------------- */

/* What the kernel told. The service and the TEI are those of the link as it was told, which may have lost its TEI since. */
typedef struct {
    uint32_t primitive;
    int channel, service, tei;
    const uint8_t *octets;
    size_t length;
} indication;

/* Another terminal of the kernel's has this TEI, too: nobody can tell their messages apart. */
static void look_for_doubles(const kernel_link *link) {
    for (int i = 0; i < kernel_link_count; i++)
        if (plan.side == KERNEL_TE && link->tei != GROUP && &kernel_links[i] != link && kernel_links[i].tei == link->tei) {
            doubled++;
            streams_tei_twice(link->tei);
            note("   tei %d twice: %d and %d", link->tei, i, (int)(link - kernel_links));
        }
}

static void link_is(kernel_link *link, const indication *it, const char *what, bool is_up) {
    note("   kernel %d: %s, tei %d", (int)(link - kernel_links), what, it->tei);
    link->is_up = is_up;
    link->is_establishing = link->is_establishing && it->primitive == MISDN_ESTABLISH_INDICATION;
    link->is_releasing = link->is_releasing && is_up;
    streams_told(TO_OURS, it->service, it->tei);
}

static void need(bool is_so, const indication *it, const char *what) {
    if (!is_so)
        fault(FAULT_KERNEL_NOTE, "%s, tei %d", what, it->tei);
}

static void unit_is_told(const kernel_link *link, const indication *it) {
    if (plan.side != KERNEL_TE)
        unit_came(TO_KERNEL, it->service, it->tei, it->octets, it->length);
    else if (it->tei == GROUP || !is_unit_of(TO_KERNEL, it->service, it->tei, it->octets, it->length)) /* it doesn't tell which */
        group_unit_came(TO_KERNEL, it->service, (int)(link - kernel_links), it->octets, it->length);
}

static void link_is_told(kernel_link *link, const indication *it) {
    bool is_open = link->is_up || link->is_establishing || link->is_releasing || link->is_gone;
    switch (it->primitive) {
    case MISDN_INFORMATION:
        link->tei = it->tei;
        link->service = it->service;
        note("   kernel %d: information, tei %d", (int)(link - kernel_links), it->tei);
        look_for_doubles(link);
        break;
    case MISDN_ESTABLISH_CONFIRM:
        need(link->is_establishing, it, "a confirm that was not asked for");
        link_is(link, it, "establish confirm", true);
        break;
    case MISDN_ESTABLISH_INDICATION: link_is(link, it, "establish indication", true); break;
    case MISDN_RELEASE_INDICATION:
        need(is_open, it, "a release indication of a link that is down");
        link_is(link, it, "release indication", false);
        break;
    case MISDN_RELEASE_CONFIRM:
        need(link->is_releasing, it, "a release confirm that was not asked for");
        link_is(link, it, "release confirm", false);
        break;
    case MISDN_DATA_INDICATION:
        need(link->is_up, it, "data of a link that is down");
        data_came(TO_KERNEL, it->service, it->tei, it->octets, it->length, kernel_read);
        break;
    case MISDN_UNIT_INDICATION: unit_is_told(link, it); break;
    default: break;
    }
}

/* Of the kernel's network, the link of this channel: a new one, if it is not known, and anew at each information. */
static kernel_link *link_of_channel(const indication *it) {
    int i = 0;
    while (i < kernel_link_count && kernel_links[i].channel != it->channel)
        i++;
    if (i == MOST_KERNEL_LINKS)
        return NULL;
    if (i == kernel_link_count)
        add_link(kernel_links[0].file, kernel_links[0].device, it->channel, 0, it->tei);
    if (it->primitive == MISDN_INFORMATION)
        kernel_links[i] = (kernel_link){.file = kernel_links[0].file, .device = kernel_links[0].device, .channel = it->channel};
    return &kernel_links[i];
}

static void told(kernel_link *link, const indication *it) {
    bool is_inactive = it->primitive == MISDN_LAYER1_INACTIVE;
    if (is_inactive || (is_basic_network() && it->channel == 0)) {
        deactivations += is_inactive || it->primitive == MISDN_INACTIVE;
        return;
    }
    if (is_basic_network())
        link = link_of_channel(it);
    if (link != NULL)
        link_is_told(link, it);
}

void kernel_read(void) {
    uint8_t in[LONGEST_IN];
    misdn_head head;
    for (int i = 0; i < kernel_files(); i++)
        for (ssize_t length; (length = recv(kernel_links[i].file, in, sizeof in, MSG_DONTWAIT)) >= (ssize_t)sizeof head;) {
            memcpy(&head, in, sizeof head);
            indication it = {.primitive = head.primitive,
                             .channel = (int)(head.id >> 16),
                             .service = (head.id & 255) == PACKET_SAPI,
                             .tei = head.id >> 8 & 127,
                             .octets = in + sizeof head,
                             .length = (size_t)length - sizeof head};
            told(&kernel_links[i], &it);
        }
}

/* ---- TEIs that are taken away ------------------------------------------------------------------------------------- */

static bool is_remove(const uint8_t *frame, size_t length) {
    return length == 8 && frame[0] >> 2 == MANAGEMENT && frame[6] == REMOVE;
}

void kernel_is_reached(int device, const uint8_t *frame, size_t length) {
    for (int i = 0; plan.side == KERNEL_TE && is_remove(frame, length) && i < kernel_link_count; i++)
        if (kernel_links[i].device == device && (frame[7] == ALL || kernel_links[i].tei == frame[7] >> 1))
            kernel_links[i].tei = GROUP;
}

void kernel_sends(const uint8_t *frame, size_t length) {
    for (int i = 0; is_basic_network() && is_remove(frame, length) && i < kernel_link_count; i++) {
        kernel_link *link = &kernel_links[i];
        if (link->channel == 0 || link->tei != frame[7] >> 1)
            continue;
        link->is_gone = true;
        link->is_establishing = link->is_releasing = false;
        streams_told(TO_OURS, CALLS, link->tei);
        note("   kernel %d is gone, tei %d", i, link->tei);
    }
}

unsigned kernel_doubled(void) {
    return doubled;
}

unsigned kernel_deactivations(void) {
    return deactivations;
}
