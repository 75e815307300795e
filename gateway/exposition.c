/* exposition.c: what is counted, as text. See exposition.h. */
#define _GNU_SOURCE

#include "exposition.h"

#include <inttypes.h>
#include <stdbool.h>
#include <stdint.h>
#include <stdio.h>
#include <stdlib.h>
#include <sys/resource.h>
#include <unistd.h>

#include "associations.h"
#include "counts.h"
#include "lines.h"
#include "queue.h"
#include "servers.h"

#define PREFIX "lapd_gateway_"

static void begin(FILE *to, const char *name, const char *kind) {
    fprintf(to, "# TYPE " PREFIX "%s %s\n", name, kind);
}

static void put(FILE *to, const char *name, const char *kind, double value) {
    begin(to, name, kind);
    fprintf(to, PREFIX "%s %.15g\n", name, value);
}

/* ---- The program -------------------------------------------------------------------------------------------------------- */

static void put_counts(FILE *to) {
#define PUT_COUNT(name) put(to, #name "_total", "counter", (double)counts.name);
    COUNTS(PUT_COUNT)
    begin(to, "iua_errors_sent_total", "counter");
    for (unsigned code = 1; code < IUA_ERRORS; code++)
        fprintf(to, PREFIX "iua_errors_sent_total{code=\"%u\"} %" PRIu64 "\n", code, counts.iua_errors_sent[code]);
}

/* Octets of memory that the process has now. */
static double memory(void) {
    unsigned long all, resident = 0;
    FILE *from = fopen("/proc/self/statm", "r");
    if (from == NULL)
        return 0;
    if (fscanf(from, "%lu %lu", &all, &resident) != 2)
        resident = 0;
    fclose(from);
    return (double)resident * (double)sysconf(_SC_PAGESIZE);
}

static void put_process(FILE *to) {
    struct rusage used;
    getrusage(RUSAGE_SELF, &used);
    put(to, "cpu_seconds_total", "counter",
        (double)(used.ru_utime.tv_sec + used.ru_stime.tv_sec) + (double)(used.ru_utime.tv_usec + used.ru_stime.tv_usec) / 1e6);
    put(to, "memory_octets", "gauge", memory());
    put(to, "queued_octets", "gauge", (double)queue_all());
}

/* ---- Servers and associations ------------------------------------------------------------------------------------------- */

static void put_servers(FILE *to) {
    begin(to, "server_state", "gauge");
    for (unsigned i = 0; i < server_count; i++)
        fprintf(to, PREFIX "server_state{server=\"%s\"} %u\n", servers[i]->is.name, servers[i]->state);
    begin(to, "server_held_octets", "gauge");
    for (unsigned i = 0; i < server_count; i++)
        fprintf(to, PREFIX "server_held_octets{server=\"%s\"} %zu\n", servers[i]->is.name, servers[i]->held.octets);
}

static void put_associations(FILE *to) {
    unsigned there = 0, up = 0;
    begin(to, "association_octets", "gauge");
    for (unsigned i = 0; i < MOST_ASSOCIATIONS; i++)
        if (associations[i] != NULL)
            fprintf(to, PREFIX "association_octets{association=\"%u\"} %zu\n", i, associations[i]->out.octets);
    begin(to, "association_unsent_octets", "gauge");
    for (unsigned i = 0; i < MOST_ASSOCIATIONS; i++)
        if (associations[i] != NULL) {
            there++;
            up += associations[i]->is_up;
            fprintf(to, PREFIX "association_unsent_octets{association=\"%u\"} %zu\n", i, associations[i]->unsent_octets);
        }
    put(to, "associations", "gauge", there);
    put(to, "processes_up", "gauge", up);
}

/* ---- Lines and links ---------------------------------------------------------------------------------------------------- */

static void put_lines(FILE *to) {
    begin(to, "line_up", "gauge");
    for (unsigned i = 0; i < line_count; i++)
        fprintf(to, PREFIX "line_up{line=\"%u\"} %d\n", lines[i]->identifier, lines[i]->is_up);
    begin(to, "line_counter_total", "counter");
    for (unsigned i = 0; i < line_count; i++) {
        struct lapd_counters all;
        if (lapd_counters(&lines[i]->card->own, lines[i]->at, &all) != LAPD_OK)
            continue;
        for (unsigned place = 0; place < LAPD_COUNTERS; place++)
            fprintf(to, PREFIX "line_counter_total{line=\"%u\",counter=\"%s\"} %" PRIu64 "\n", lines[i]->identifier,
                    lapd_counter_text(place), all.values[place]);
    }
}

/* Something of each link: a name, its kind, and how it is told. */
typedef void put_link_of(FILE *to, const char *name, line *of, const lapd_link *link);

static void put_links(FILE *to, const char *name, const char *kind, put_link_of *put_link) {
    begin(to, name, kind);
    for (unsigned i = 0; i < line_count; i++) {
        uint8_t place = 0;
        for (lapd_link link; lapd_next_link(&lines[i]->card->own, lines[i]->at, &place, &link) == LAPD_OK;)
            put_link(to, name, lines[i], &link);
    }
}

static void put_labels(FILE *to, const char *name, const line *of, const lapd_link *link) {
    fprintf(to, PREFIX "%s{line=\"%u\",sapi=\"%u\",tei=\"%u\"", name, of->identifier,
            link->service == LAPD_CALL ? 0u : of->of->is.sapi, link->tei);
}

static const link_record *record_of(const line *of, const lapd_link *link) {
    for (const link_record *it = of->links.at; it < of->links.at + of->links.count; it++)
        if (it->is_used && it->service == link->service && it->tei == link->tei)
            return it;
    return NULL;
}

static void put_state(FILE *to, const char *name, line *of, const lapd_link *link) {
    put_labels(to, name, of, link);
    fprintf(to, "} %u\n", link->state);
}

static void put_busy(FILE *to, const char *name, line *of, const lapd_link *link) {
    const link_record *record = record_of(of, link);
    put_labels(to, name, of, link);
    fprintf(to, "} %d\n", record != NULL && record->is_busy);
}

static void put_waiting(FILE *to, const char *name, line *of, const lapd_link *link) {
    const link_record *record = record_of(of, link);
    put_labels(to, name, of, link);
    fprintf(to, "} %u\n", record != NULL ? record->waiting.count : 0);
}

static void put_link_counters(FILE *to, const char *name, line *of, const lapd_link *link) {
    static const char *const names[] = {"sent-again", "t200-expired", "rejects-sent", "rejects-received", "established"};
    struct lapd_link_counters all;
    if (lapd_link_counters(&of->card->own, of->at, link->service, link->tei, &all) != LAPD_OK)
        return;
    const uint16_t values[] = {all.sent_again, all.t200_expired, all.rejects_sent, all.rejects_received, all.established};
    for (unsigned i = 0; i < sizeof values / sizeof *values; i++) {
        put_labels(to, name, of, link);
        fprintf(to, ",counter=\"%s\"} %u\n", names[i], values[i]);
    }
}

char *exposition(size_t *length) {
    char *text = NULL;
    FILE *to = open_memstream(&text, length);
    if (to == NULL)
        return NULL;
    put_counts(to);
    put_process(to);
    put_servers(to);
    put_associations(to);
    put_lines(to);
    put_links(to, "link_state", "gauge", put_state);
    put_links(to, "link_busy", "gauge", put_busy);
    put_links(to, "link_waiting", "gauge", put_waiting);
    put_links(to, "link_counter_total", "counter", put_link_counters);
    bool is_whole = ferror(to) == 0;
    if (fclose(to) == 0 && is_whole)
        return text;
    free(text);
    return NULL;
}
