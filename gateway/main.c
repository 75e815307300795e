/*
 * main.c: lapd-gateway(8), its words, its signals and its loop. The other parts, from the lines up:
 *
 *     drivers/         layer 1 of lines, and their frames
 *     lines, groups    lines, and what they begin with; terminals and audits look after TEIs
 *     cards            cards of lapd.h, and their time
 *     links, settle    what a link means to a server; requests has what a server asks of it
 *     servers          who of a server's processes has which line, and what waits for the next one
 *     associations     what goes to processes, and heartbeats; transports has SCTP and Unix sockets
 *     messages, iua    what processes say; processes has who may join
 *     configuration    with sections and values; reload reads it anew
 *     state, restore   the saved state; standby hands it to a second process, which is a follower
 *     metrics, exposition, capture, log, and loop, queue and record, which the others use
 */
#define _GNU_SOURCE

#include <inttypes.h>
#include <signal.h>
#include <stdio.h>
#include <stdlib.h>
#include <string.h>
#include <sys/resource.h>
#include <systemd/sd-daemon.h>
#include <unistd.h>

#include "associations.h"
#include "capture.h"
#include "configuration.h"
#include "counts.h"
#include "lines.h"
#include "log.h"
#include "loop.h"
#include "metrics.h"
#include "processes.h"
#include "reload.h"
#include "servers.h"
#include "standby.h"
#include "state.h"
#include "transports.h"

enum { MOST_FILES = 4096, END_MS = 1000 };

static const char usage[] =
    "usage: lapd-gateway [--log-frames] [--standby] CONFIGURATION\n"
    "       lapd-gateway --check CONFIGURATION\n"
    "       lapd-gateway --help | --version\n";
static const char help[] =
    "\n"
    "A signalling gateway: it ends ISDN D-channels (LAPD, ITU-T Q.921), and hands layer 3 to application servers by IUA\n"
    "(RFC 4233).\n"
    "\n"
    "  --check       reads the configuration, and tells the first fault with its line\n"
    "  --log-frames  tells each frame of each line in words, too\n"
    "  --standby     waits beside a process with the same configuration, and goes on when that is gone\n";

counts_of_all counts;
static configuration present;
static const char *present_file;
static bool is_active; /* lines are served here, and not by a process beside this one */
static sd_event_source *end_timer;
static uint64_t shut_at;

/* ---- The end of each turn ----------------------------------------------------------------------------------------------- */

/* Before the loop waits, all goes that the turn has led to. While the program ends, the timer ends it, as a loop that prepares
 * its wait can't. */
static int turn_ends(sd_event_source *source, void *user) {
    bool is_more = is_active;
    (void)source;
    (void)user;
    while (is_more) {
        do
            lines_take();
        while (associations_settle());
        standby_hand_over(); /* before anything goes out that it led to */
        is_more = lines_give();
        is_more = associations_flush() || is_more;
    }
    if (servers_are_ending) {
        associations_shut(loop_now() >= shut_at);
        if (!associations_are_there())
            loop_set_timer(end_timer, loop_now());
    }
    return 0;
}

/* ---- Signals ------------------------------------------------------------------------------------------------------------ */

static int is_over(sd_event_source *source, uint64_t time, void *user) {
    (void)source;
    (void)time;
    (void)user;
    if (associations_are_there() && loop_now() < shut_at + END_MS / 2)
        loop_set_timer(end_timer, shut_at + END_MS / 2);
    else
        sd_event_exit(loop, 0);
    return 0;
}

/* All links are busy, and processes say what they have read. */
static int ends(sd_event_source *source, const struct signalfd_siginfo *signal, void *user) {
    (void)source;
    (void)signal;
    (void)user;
    if (!is_active) {
        sd_event_exit(loop, 0);
        return 0;
    }
    if (servers_are_ending)
        return 0;
    log_line(LOG_EVENT, "the gateway ends");
    sd_notify(0, "STOPPING=1");
    servers_are_ending = true;
    metrics_set_ready(false);
    transports_end();
    shut_at = loop_now() + END_MS / 2;
    loop_set_timer(end_timer, shut_at);
    for (unsigned i = 0; i < line_count; i++)
        links_settle(lines[i]);
    associations_end();
    return 0;
}

static int reads_anew(sd_event_source *source, const struct signalfd_siginfo *signal, void *user) {
    uint64_t now = 0;
    (void)source;
    (void)signal;
    (void)user;
    if (servers_are_ending || !is_active)
        return 0;
    sd_event_now(loop, CLOCK_MONOTONIC, &now);
    sd_notifyf(0, "RELOADING=1\nMONOTONIC_USEC=%" PRIu64, now);
    reload(&present, present_file);
    standby_begin_anew();
    sd_notify(0, "READY=1");
    return 0;
}

static bool watch_signals(void) {
    sigset_t all;
    sd_event_source *source = NULL;
    sigemptyset(&all);
    sigaddset(&all, SIGTERM);
    sigaddset(&all, SIGINT);
    sigaddset(&all, SIGHUP);
    end_timer = loop_timer(is_over, NULL);
    return end_timer != NULL && sigprocmask(SIG_BLOCK, &all, NULL) == 0
           && sd_event_add_signal(loop, &source, SIGTERM, ends, NULL) >= 0
           && sd_event_add_signal(loop, NULL, SIGINT, ends, NULL) >= 0
           && sd_event_add_signal(loop, NULL, SIGHUP, reads_anew, NULL) >= 0
           && sd_event_source_set_prepare(source, turn_ends) >= 0 && sd_event_set_watchdog(loop, true) >= 0;
}

/* ---- The start ---------------------------------------------------------------------------------------------------------- */

static bool fails(const char *what, const char *why) {
    log_line(LOG_FAULT, "%s: %s", what, why);
    return false;
}

static bool begin_servers(void) {
    for (unsigned i = 0; i < present.servers; i++)
        if (!server_start(&present.server[i]))
            return fails(present.server[i].name, "there is no memory");
    processes_set(&present);
    return true;
}

static bool start_lines(void) {
    const char *fault;
    for (unsigned i = 0; i < present.groups; i++)
        if (!group_start(&present.group[i], &fault))
            return fails(present.group[i].name, fault);
    return true;
}

static bool begin_lines(void) {
    if (present.lines[0] != 0 && !driver_frames.begin(&present))
        return false;
    for (unsigned i = 0; i < group_count; i++)
        if (!group_begin(groups[i]))
            return false;
    return true;
}

/* This process is the active one from now on. */
static bool go_active(void) {
    is_active = true;
    if (!begin_lines() || !transports_begin(&present) || !metrics_begin(&present) || !captures_begin(&present)
        || (present.standby[0] != 0 && !standby_serve(&present)))
        return false;
    log_line(LOG_EVENT, "the gateway serves %u lines", line_count);
    metrics_set_ready(true);
    sd_notify(0, "READY=1\nSTATUS=It serves lines");
    return true;
}

/* The standby goes on from what it knows. Another start must not do so from a file. */
static void takes_over(void) {
    if (group_count > 0 && groups[0]->is_restored)
        unlink(present.state);
    else if (present.state[0] != 0)
        state_restore(present.state);
    if (groups[0]->is_restored)
        state_go_on();
    if (!go_active())
        sd_event_exit(loop, 1);
}

static bool begin(const char *file, bool may_wait) {
    char fault[CONFIGURATION_FAULT];
    struct rlimit files = {.rlim_cur = MOST_FILES, .rlim_max = MOST_FILES};
    present_file = file;
    if (!configuration_read(&present, file, fault)) {
        log_line(LOG_FAULT, "%s", fault);
        return false;
    }
    if (may_wait && present.standby[0] == 0)
        return fails(file, "[gateway] has no `standby`, which --standby needs");
    (void)setrlimit(RLIMIT_NOFILE, &files);
    associations_beat = present.beat;
    if (!loop_begin() || !watch_signals())
        return fails("lapd-gateway", "there is no loop");
    if (!begin_servers() || !start_lines())
        return false;
    standby_role role = present.standby[0] == 0 ? STANDBY_ACTIVE : standby_begin(&present, may_wait, takes_over);
    if (role == STANDBY_WAITS)
        sd_notify(0, "READY=1\nSTATUS=It waits beside the active process");
    if (role == STANDBY_ACTIVE && present.state[0] != 0)
        state_restore(present.state);
    return role == STANDBY_WAITS || (role == STANDBY_ACTIVE && go_active());
}

static int check(const char *file) {
    char fault[CONFIGURATION_FAULT];
    if (configuration_read(&present, file, fault))
        return 0;
    fprintf(stderr, "%s\n", fault);
    return 1;
}

static int serve(const char *file, bool may_wait) {
    if (!begin(file, may_wait))
        return 1;
    bool is_good = sd_event_loop(loop) == 0;
    metrics_end();
    captures_end();
    return (!is_active || present.state[0] == 0 || state_save(present.state)) && is_good ? 0 : 1;
}

int main(int words, char **word) {
    bool is_check = false, may_wait = false;
    int at = 1;
    log_begin();
    if (words == 2 && strcmp(word[1], "--help") == 0)
        return printf("%s%s", usage, help) < 0;
    if (words == 2 && strcmp(word[1], "--version") == 0)
        return printf("lapd-gateway %u.%u\n", lapd_version() / 1000, lapd_version() % 1000) < 0;
    for (; at < words && strncmp(word[at], "--", 2) == 0; at++)
        if (strcmp(word[at], "--log-frames") == 0)
            lines_log_frames = true;
        else if (strcmp(word[at], "--check") == 0)
            is_check = true;
        else if (strcmp(word[at], "--standby") == 0)
            may_wait = true;
        else
            break;
    if (at + 1 != words || word[at][0] == '-' || (is_check && may_wait)) {
        fputs(usage, stderr);
        return 2;
    }
    standby_set_words(word);
    return is_check ? check(word[at]) : serve(word[at], may_wait);
}
