/*
 * link.c: plays events on one link, and tells what each led to. It reads lines, and writes one for each event:
 *
 *     begin STATE ASKED REPEATS OUTSTANDING UNSENT OWN PEER REJECT TIMER     a new link in this state; writes nothing
 *     frame HEX, data HEX
 *     t200, t203, establish, release, busy, ready, leave, down
 *     wait MS                                                                time goes on, and timers expire
 *
 *     SERVED|CONTROL FRAMES|I-FRAMES|WHAT IS TOLD|TIMERS|STATE
 *
 * Of a timer that runs, the moment at which it expires is told, in ms since the link began; its name alone where nothing
 * started it since. Words of the command line name the differences that are made alike.
 */
#include "link.h"

#include <ctype.h>
#include <stdio.h>
#include <stdlib.h>
#include <string.h>

enum { ROOM = 4096, MOST_LINE = 1024 };

static char control[ROOM], contents[ROOM], told[ROOM];
static unsigned frames_sent;
static long now;

/* A timer: whether it runs, since when, and whether the column had it already. */
typedef struct timer {
    bool runs, is_old;
    long due;
} timer;
static timer t200, t203;

static int words_count;
static char **words;

bool is_alike(const char *difference) {
    for (int i = 0; i < words_count; i++)
        if (strcmp(words[i], difference) == 0)
            return true;
    return false;
}

static void add(char *list, const char *item) {
    size_t length = strlen(list);
    if (length + strlen(item) + 3 > ROOM) {
        fprintf(stderr, "link: too much is told\n");
        exit(1);
    }
    sprintf(list + length, "%s%s", length == 0 ? "" : "; ", item);
}

/* ---- What a stack tells ---------------------------------------------------------------------------------------------- */

static timer *named(int which) { return which == 200 ? &t200 : &t203; }

void starts(int which) { *named(which) = (timer){true, false, now + (which == 200 ? T200_TAKES : T203_TAKES)}; }

void stops(int which) { named(which)->runs = false; }

bool runs(int which) { return named(which)->runs; }

unsigned sent_count(void) { return frames_sent; }

void tells(const char *what) { add(told, what); }

void tells_error(char letter) {
    char text[] = "error ?";
    text[sizeof text - 2] = letter;
    add(told, text);
}

static const char *unnumbered(uint8_t octet) {
    switch (octet & 0xEF) {
    case 0x6F: return "SABME";
    case 0x43: return "DISC";
    case 0x63: return "UA";
    case 0x0F: return "DM";
    case 0x87: return "FRMR";
    case 0x03: return "UI";
    case 0xAF: return "XID";
    default: return "U?";
    }
}

/* The network's commands have C/R 1. */
void sends(const uint8_t *frame, size_t length) {
    char text[80];
    const char *bit = frame[0] & 2 ? "P" : "F";
    frames_sent++;
    if ((frame[2] & 1) == 0) {
        sprintf(text, "I %d,%d%s%s", frame[2] >> 1, frame[3] >> 1, frame[3] & 1 ? " P=1" : "", frame[0] & 2 ? "" : " as a response");
        add(contents, text);
        return;
    }
    if ((frame[2] & 3) == 1 && length >= 4) {
        const char *names[] = {"RR", "RNR", "REJ", "S?"};
        sprintf(text, "%s %s=%d N(R)=%d", names[frame[2] >> 2 & 3], bit, frame[3] & 1, frame[3] >> 1);
    } else
        sprintf(text, "%s %s=%d", unnumbered(frame[2]), bit, frame[2] >> 4 & 1);
    add(control, text);
}

/* ---- Events ---------------------------------------------------------------------------------------------------------- */

static size_t octets_of(const char *text, uint8_t *octets, size_t room) {
    size_t count = 0;
    unsigned octet;
    while (count < room && sscanf(text, "%2x", &octet) == 1) {
        octets[count++] = (uint8_t)octet;
        text += 2;
    }
    return count;
}

static void begins(const char *text) {
    column at;
    if (sscanf(text, "%d %d %d %d %d %d %d %d %d", &at.state, &at.asked, &at.repeats, &at.outstanding, &at.unsent, &at.own_busy,
               &at.peer_busy, &at.reject, &at.timer) != 9) {
        fprintf(stderr, "link: no column: %s", text);
        exit(2);
    }
    now = 0;
    stack_begin(&at);
    t200 = (timer){at.timer == 200, true, T200_TAKES};
    t203 = (timer){at.timer == 203, true, T203_TAKES};
    control[0] = contents[0] = told[0] = '\0';
}

/* A timer that does not run does not expire. */
static bool expires(int which) {
    if (!runs(which))
        return true;
    stops(which);
    return stack_meets(which == 200 ? T200 : T203, NULL, 0);
}

static void waits(long much) {
    long end = now + much;
    for (;;) {
        bool first = t200.runs && (!t203.runs || t200.due <= t203.due);
        timer *next = first ? &t200 : &t203;
        if (!next->runs || next->due > end)
            break;
        now = next->due;
        (void)expires(first ? 200 : 203);
    }
    now = end;
}

static bool meets(char *line) {
    static const struct {
        const char *word;
        happening what;
    } plain[] = {{"establish", ESTABLISH}, {"release", RELEASE}, {"busy", BUSY}, {"ready", READY}, {"leave", LEAVE}, {"down", DOWN}};
    uint8_t octets[MOST_LINE / 2];
    if (strncmp(line, "frame ", 6) == 0)
        return stack_meets(FRAME, octets, octets_of(line + 6, octets, sizeof octets));
    if (strncmp(line, "data ", 5) == 0)
        return stack_meets(DATA, octets, octets_of(line + 5, octets, sizeof octets));
    if (strncmp(line, "wait ", 5) == 0) {
        waits(atol(line + 5));
        return true;
    }
    if (strcmp(line, "t200") == 0 || strcmp(line, "t203") == 0)
        return expires(atoi(line + 1));
    for (size_t i = 0; i < sizeof plain / sizeof *plain; i++)
        if (strcmp(line, plain[i].word) == 0)
            return stack_meets(plain[i].what, NULL, 0);
    fprintf(stderr, "link: what is %s?\n", line);
    exit(2);
}

static void write_timer(const char *name, const timer *it, const char *before) {
    if (it->runs && it->is_old)
        printf("%s%s", before, name);
    else if (it->runs)
        printf("%s%s %ld", before, name, it->due);
}

int main(int argc, char **argv) {
    char line[MOST_LINE];
    words_count = argc - 1;
    words = argv + 1;
    while (fgets(line, sizeof line, stdin) != NULL) {
        line[strcspn(line, "\n")] = '\0';
        if (strncmp(line, "begin ", 6) == 0) {
            begins(line + 6);
            continue;
        }
        frames_sent = 0;
        bool served = meets(line);
        printf("%d|%s|%s|%s|", served, control, contents, told);
        write_timer("T200", &t200, "");
        write_timer("T203", &t203, t200.runs ? " " : "");
        printf("|%d\n", stack_state());
        control[0] = contents[0] = told[0] = '\0';
    }
    return 0;
}
