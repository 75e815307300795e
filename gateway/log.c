/* log.c: the log. See log.h. */
#define _GNU_SOURCE

#include "log.h"

#include <stdarg.h>
#include <stdio.h>
#include <stdlib.h>
#include <string.h>

#include "lapd.h"
#include "loop.h"

enum { LONGEST = 1024, MOST_OF_SECOND = 20 };

static bool is_journal;

void log_begin(void) {
    is_journal = getenv("JOURNAL_STREAM") != NULL;
}

static void put(log_level level, const char *text) {
    if (is_journal)
        fprintf(stderr, "<%d>%s\n", (int)level, text);
    else
        fprintf(stderr, "%s\n", text);
}

void log_line(log_level level, const char *format, ...) {
    char text[LONGEST];
    va_list words;
    va_start(words, format);
    vsnprintf(text, sizeof text, format, words);
    va_end(words);
    put(level, text);
}

void log_limited(log_level level, const char *format, ...) {
    static uint64_t second;
    static unsigned count;
    char text[LONGEST];
    va_list words;
    uint64_t now = loop_now() / 1000;
    if (now != second && count > MOST_OF_SECOND)
        log_line(LOG_WARN, "%u lines like these were left out", count - MOST_OF_SECOND);
    if (now != second)
        count = 0;
    second = now;
    if (count++ >= MOST_OF_SECOND)
        return;
    va_start(words, format);
    vsnprintf(text, sizeof text, format, words);
    va_end(words);
    put(level, text);
}

void log_frame(uint32_t identifier, uint16_t side, bool is_sent, const uint8_t *octets, size_t length) {
    char text[LAPD_MOST_TEXT];
    bool is_network = side == LAPD_NETWORK;
    uint16_t sender = is_sent == is_network ? LAPD_NETWORK : LAPD_USER;
    if (lapd_frame_text(octets, length, sender, text, sizeof text) != LAPD_OK)
        snprintf(text, sizeof text, "frame: %zu octets", length);
    log_line(LOG_MORE, "line %u %c %s", identifier, is_sent ? '>' : '<', text);
}
