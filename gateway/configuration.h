/*
 * configuration.h: what lapd-gateway.conf(5) says, read and checked. Nothing is opened or started here, so that --check and a
 * SIGHUP read the same as the start.
 */
#ifndef CONFIGURATION_H
#define CONFIGURATION_H

#include <netinet/in.h>
#include <stdbool.h>
#include <stddef.h>
#include <stdint.h>
#include <sys/socket.h>

#include "lapd.h"

enum {
    MOST_LINES = 1024,
    MOST_GROUPS = 128,
    MOST_SERVERS = 64,
    MOST_PROCESSES = 64,
    MOST_CAPTURES = 8,
    MOST_ADDRESSES = 8,
    MOST_RANGES = 64,
    MOST_OF_PROCESS = 16, /* servers that a process names */
    NAME_ROOM = 32,
    PATH_ROOM = 108 /* of a Unix socket's address */
};

typedef struct {
    struct sockaddr_storage address;
    socklen_t length;
} configuration_address;

typedef struct {
    unsigned count;
    configuration_address at[MOST_ADDRESSES];
} configuration_addresses;

/* Numbers in order as they stand, each from a first one to a last. */
typedef struct {
    unsigned count;
    struct {
        uint32_t first, last;
    } range[MOST_RANGES];
} configuration_list;

enum { DRIVER_FRAMES, DRIVER_MISDN, DRIVER_DAHDI };

/* A group of equal lines. What is said of a card is said in its configuration, whose lines and slots are those of one line. */
typedef struct {
    char name[NAME_ROOM];
    uint32_t first, count, is_primary, side, driver, establishes;
    uint32_t reading, terminals, k, k16, queue, unit_queue, control, slots, n201, n200, sapi;
    lapd_lengths lengths;
    configuration_list device, teis;
    lapd_config config; /* made of these numbers, with a seed of 0 */
} configuration_group;

typedef struct {
    char name[NAME_ROOM];
    uint32_t first, last, mode, pending, on_pending, retains;
} configuration_server;

typedef struct {
    char name[NAME_ROOM];
    configuration_addresses address;
    uint32_t is_unix, has_identifier, identifier, is_blocked;
    unsigned servers; /* 0: for each server */
    char server[MOST_OF_PROCESS][NAME_ROOM];
} configuration_process;

typedef struct {
    char name[NAME_ROOM];
    configuration_list lines;
    char file[PATH_ROOM];
    configuration_addresses gsmtap;
} configuration_capture;

typedef struct {
    configuration_addresses sctp, metrics;
    uint32_t port, beat;
    char path[PATH_ROOM], lines[PATH_ROOM], state[PATH_ROOM], standby[PATH_ROOM];
    unsigned groups, servers, processes, captures;
    configuration_group group[MOST_GROUPS];
    configuration_server server[MOST_SERVERS];
    configuration_process process[MOST_PROCESSES];
    configuration_capture capture[MOST_CAPTURES];
} configuration;

enum { CONFIGURATION_FAULT = 400 };

/* Reads a file. False: fault has the first fault, in one sentence that begins with the file and its line. */
bool configuration_read(configuration *to, const char *file, char fault[CONFIGURATION_FAULT]);

/* How many lines of this group a card has at most. */
unsigned configuration_lines_of_card(const configuration_group *group);

/* The number that stands at a place of a list, the first at 0. The place is in the list. */
uint32_t configuration_number(const configuration_list *list, uint32_t place);

/* How many numbers a list has, and whether one is among them. */
uint64_t configuration_count(const configuration_list *list);
bool configuration_has(const configuration_list *list, uint32_t number);

#endif
