/*
 * libpri_polls.c: how long libpri, the ISDN stack of a widespread PBX, takes for a poll. It is the network side of a primary
 * rate access here. Its link is established, and then RR commands with P 1 come, over and over; it answers each by an RR
 * with F 1. Frames go by its own callbacks, in memory. For tests/bench alone.
 *
 *     libpri_polls COUNT     does COUNT polls, and prints how many answers there were
 */
#include <libpri.h>
#include <stdio.h>
#include <stdlib.h>
#include <string.h>

static const unsigned char ua[] = {0x02, 0x01, 0x73, 0, 0}, poll[] = {0x00, 0x01, 0x01, 0x01, 0, 0};

static const unsigned char *comes;
static size_t length;
static unsigned long answers;

/* libpri hands over and takes frames with two octets of room for a check, which it does not look at. */
static int give(struct pri *pri, void *octets, int size) {
    const unsigned char *frame = octets;
    (void)pri;
    answers += size == 6 && frame[2] == 0x01 && (frame[3] & 1) == 1 && (frame[0] & 2) == 0;
    return size;
}

static int take(struct pri *pri, void *octets, int room) {
    (void)pri;
    (void)room;
    size_t taken = length;
    if (taken > 0)
        memcpy(octets, comes, taken);
    length = 0;
    return (int)taken;
}

static void said(struct pri *pri, char *text) {
    (void)pri;
    (void)text;
}

static void hear(struct pri *pri, const unsigned char *frame, size_t size) {
    comes = frame;
    length = size;
    pri_check_event(pri);
}

int main(int argc, char **argv) {
    if (argc != 2) {
        fprintf(stderr, "libpri_polls: COUNT\n");
        return 2;
    }
    unsigned long count = strtoul(argv[1], NULL, 10);
    pri_set_message(said);
    pri_set_error(said);
    struct pri *pri = pri_new_cb(0, PRI_NETWORK, PRI_SWITCH_EUROISDN_E1, take, give, NULL);
    if (pri == NULL) {
        fprintf(stderr, "libpri_polls: libpri does not start\n");
        return 1;
    }
    /* It has sent a SABME as it began. */
    hear(pri, ua, sizeof ua);
    answers = 0;
    for (unsigned long i = 0; i < count; i++)
        hear(pri, poll, sizeof poll);
    printf("%lu\n", answers);
    return answers == count ? 0 : 1;
}
