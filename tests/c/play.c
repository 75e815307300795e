/*
 * play.c: plays a script of docs/FORMAT.md through the C library, and writes its transcript, as `lapdsim run` does.
 * For tests alone.
 *
 *     play [--timed] [--exchange] < SCRIPT
 *
 * With --timed the card keeps its own timers, and there is no clock.
 * With --exchange every pull is one of lapd_exchange: lines `rx LINE OCTET` and `pull LINE 1` in turn are handed over as
 * one run, as turn.c makes them; other pulls are exchanges of one octet from their second step.
 * Status 0; 1 for a faulty line or refused memory, told on standard error; 2 for words.
 */
#include <string.h>

#include "station.h"

int main(int words, char **argv) {
    static station b;
    static char line[MOST_LINE];
    int at = 1;
    station_begin(&b, stdout, "a script");
    b.is_timed = at < words && strcmp(argv[at], "--timed") == 0;
    at += b.is_timed;
    b.by_exchange = at < words && strcmp(argv[at], "--exchange") == 0;
    at += b.by_exchange;
    if (at != words) {
        fprintf(stderr, "usage: %s [--timed] [--exchange] < SCRIPT\n", argv[0]);
        return 2;
    }
    fault kind = NO_FAULT;
    size_t length, number = 0;
    for (; kind == NO_FAULT && next_line(line, &length); number++)
        kind = station_obey(&b, line, length);
    station_end(&b);
    station_fault(stderr, kind, number);
    return kind != NO_FAULT;
}
