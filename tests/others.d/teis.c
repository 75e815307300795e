/*
 * teis.c: plays events on TEI management of one line, and tells what each led to. It reads lines, and writes one for each
 * event:
 *
 *     network, terminal        a new line of that side; writes nothing
 *     hear TYPE RI AI..        a message comes: `last` as RI is that of the latest identity request that went
 *     octets HEX               a frame comes
 *     expire, ask, verify
 *
 *     MESSAGES|TIMER|TEIS      TIMER is `starts`, `runs` or nothing
 *
 * The Ri of messages that a terminal makes is at random, and is not told.
 */
#include "teis.h"

#include <stdio.h>
#include <stdlib.h>
#include <string.h>

enum { ROOM = 4096, MOST_LINE = 256, ASKS = 1, ASSIGNS = 2, DENIES = 3 };

static char messages[ROOM];
static bool is_network, runs, is_started;
static unsigned last;

void sends(const uint8_t *frame, size_t length) {
    static const char *const names[] = {"message of type 0", "identity request", "identity assigned", "identity denied",
                                        "identity check request", "identity check response", "identity remove", "identity verify"};
    char text[80];
    if (length < MESSAGE_OCTETS || frame[0] >> 2 != 63 || frame[6] > 7)
        return;
    unsigned ri = (unsigned)frame[4] << 8 | frame[5], type = frame[6];
    int end = sprintf(text, "%s", names[type]);
    if (type == ASKS)
        last = ri;
    if (type == ASSIGNS || type == DENIES)
        end += sprintf(text + end, " Ri %u", ri);
    if (type != ASKS)
        sprintf(text + end, " Ai %d", frame[7] >> 1);
    if (strlen(messages) + strlen(text) + 3 > ROOM) {
        fprintf(stderr, "teis: too much is told\n");
        exit(1);
    }
    sprintf(messages + strlen(messages), "%s%s", messages[0] ? "; " : "", text);
}

void starts(void) { runs = is_started = true; }

void stops(void) { runs = is_started = false; }

/* Messages of the network's side are its commands, those of a terminal the user's. */
static void hears(char *words) {
    uint8_t frame[MOST_LINE] = {is_network ? 0xFC : 0xFE, 0xFF, 0x03, 0x0F};
    size_t length = 7;
    char *word = strtok(words, " ");
    frame[6] = (uint8_t)atoi(word);
    word = strtok(NULL, " ");
    unsigned ri = strcmp(word, "last") == 0 ? last : (unsigned)atoi(word);
    frame[4] = (uint8_t)(ri >> 8);
    frame[5] = (uint8_t)ri;
    while ((word = strtok(NULL, " ")) != NULL)
        frame[length++] = (uint8_t)(2 * atoi(word));
    frame[length - 1] |= 1;
    stack_hears(frame, length);
}

static void hears_octets(const char *text) {
    uint8_t frame[MOST_LINE];
    size_t length = 0;
    unsigned octet;
    while (sscanf(text, "%2x", &octet) == 1) {
        frame[length++] = (uint8_t)octet;
        text += 2;
    }
    stack_hears(frame, length);
}

static void meets(char *line) {
    if (strncmp(line, "hear ", 5) == 0)
        hears(line + 5);
    else if (strncmp(line, "octets ", 7) == 0)
        hears_octets(line + 7);
    else if (strcmp(line, "expire") == 0 && runs) {
        stops();
        stack_expires();
    } else if (strcmp(line, "ask") == 0)
        stack_asks();
    else if (strcmp(line, "verify") == 0)
        stack_verifies();
    else if (strcmp(line, "expire") != 0) {
        fprintf(stderr, "teis: what is %s?\n", line);
        exit(2);
    }
}

int main(void) {
    char line[MOST_LINE];
    while (fgets(line, sizeof line, stdin) != NULL) {
        line[strcspn(line, "\n")] = '\0';
        if (strcmp(line, "network") == 0 || strcmp(line, "terminal") == 0) {
            is_network = line[0] == 'n';
            stops();
            stack_begin(is_network);
            stops();
            messages[0] = '\0';
            continue;
        }
        is_started = false;
        meets(line);
        printf("%s|%s|", messages, !runs ? "" : is_started ? "starts" : "runs");
        const char *between = "";
        for (int tei = 0; tei < GROUP; tei++)
            if (stack_has(tei)) {
                printf("%s%d", between, tei);
                between = " ";
            }
        printf("\n");
        messages[0] = '\0';
    }
    return 0;
}
