/* faults.c: a log of a run, and what in it is a fault. See faults.h. */
#include "faults.h"

#include <stdarg.h>
#include <stdio.h>
#include <string.h>

#include "machine.h"

enum { MOST_LINES = 60000, LONGEST_LINE = 112, SHOWN_OCTETS = 10, SHOWN_BEFORE_A_FAULT = 45 };

static char lines[MOST_LINES][LONGEST_LINE];
static unsigned count, first_fault, counts[FAULT_KINDS];
static uint64_t began;

static const char *const kinds[] = {"gap", "twice", "invented", "missing", "kernel-note", "our-note", "states-differ", "tei-twice",
                                    "our-frame", "stuck", "status", "unit"};

void faults_begin(void) {
    count = first_fault = 0;
    memset(counts, 0, sizeof counts);
    began = machine_now();
}

uint64_t now(void) {
    return machine_now() - began;
}

static void add(const char *mark, const char *format, va_list words) {
    if (count == MOST_LINES)
        return;
    char *line = lines[count++];
    int length = snprintf(line, LONGEST_LINE, "%7.3f %s", (double)now() / 1000, mark);
    vsnprintf(line + length, (size_t)(LONGEST_LINE - length), format, words);
}

void note(const char *format, ...) {
    va_list words;
    va_start(words, format);
    add("", format, words);
    va_end(words);
}

void fault(fault_kind kind, const char *format, ...) {
    char mark[32];
    va_list words;
    snprintf(mark, sizeof mark, "!!! %s: ", kinds[kind]);
    va_start(words, format);
    add(mark, format, words);
    va_end(words);
    if (first_fault == 0)
        first_fault = count;
    counts[kind]++;
}

void note_frame(const char *way, int wire, const uint8_t *octets, size_t length) {
    char text[64] = "";
    size_t end = 0;
    for (size_t i = 0; i < length && i < SHOWN_OCTETS; i++)
        end += (size_t)snprintf(text + end, sizeof text - end, " %02X", octets[i]);
    if (length > SHOWN_OCTETS)
        snprintf(text + end, sizeof text - end, " .. (%zu)", length);
    note("%s %d%s", way, wire, text);
}

unsigned faults(void) {
    unsigned sum = 0;
    for (int kind = 0; kind < FAULT_KINDS; kind++)
        sum += counts[kind];
    return sum;
}

void faults_print(void) {
    for (int kind = 0; kind < FAULT_KINDS; kind++)
        if (counts[kind] > 0)
            printf(" [%s %u]", kinds[kind], counts[kind]);
}

void faults_show_log(unsigned shown) {
    bool has_fault = shown == 0 && first_fault > 0;
    unsigned before = has_fault ? SHOWN_BEFORE_A_FAULT : shown, to = has_fault ? first_fault + 3 : count;
    to = to < count ? to : count;
    for (unsigned i = to > before ? to - before : 0; i < to; i++)
        puts(lines[i]);
    for (unsigned i = to; i < count; i++)
        if (strstr(lines[i], "!!!") != NULL)
            puts(lines[i]);
}
