/*
 * scripts.c: plays the scripts of a table, in which each is
 *
 *     NAME: FAULT LINE          nothing after the colon if it has no fault
 *     | LINE                    each line of the script
 *     = LINE                    each line of its transcript
 *
 * In these lines \xHH is an octet by its number, X\{N} is N times the sign X, and a \ at the end says that no line feed
 * follows.
 */
#include <stdint.h>
#include <stdlib.h>
#include <string.h>

#include "check.h"
#include "station.h"

/* Octets of which there may be more. */
typedef struct {
    char *at;
    size_t length, room;
} text;

#ifndef LEAST_SCRIPTS /* so many are in the table at least */
#define LEAST_SCRIPTS 400
#endif
enum { MOST_NAME = 80, MOST_COUNT = 100000 };

static struct {
    char name[MOST_NAME], fault[MOST_NAME];
    text script, transcript;
} it;

static void add(text *to, char octet) {
    if (to->length == to->room) {
        size_t room = 2 * to->room + 4096;
        char *at = realloc(to->at, room);
        if (at == NULL) {
            fputs("check: out of memory\n", stderr);
            exit(2);
        }
        to->at = at;
        to->room = room;
    }
    to->at[to->length++] = octet;
}

/* ---- A table ------------------------------------------------------------------------------------------------------ */

static int digit(char c) {
    return c >= '0' && c <= '9' ? c - '0' : c >= 'A' && c <= 'F' ? c - 'A' + 10 : -1;
}

/* Reads how often a sign stands there, as X\{N}. Answers how many signs that took, or 0. */
static size_t read_count(const char *at, size_t left, size_t *count) {
    size_t taken = 3;
    *count = 0;
    for (; taken < left && at[taken] >= '0' && at[taken] <= '9' && *count < MOST_COUNT; taken++)
        *count = *count * 10 + (size_t)digit(at[taken]);
    return taken < left && at[taken] == '}' ? taken + 1 : 0;
}

/* Adds what a sign means that begins here. Answers how many signs that took; 0 for what is no part of a table. */
static size_t add_sign(text *to, const char *at, size_t left) {
    if (at[0] == '\\' && left >= 4 && at[1] == 'x' && digit(at[2]) >= 0 && digit(at[3]) >= 0) {
        add(to, (char)(digit(at[2]) * 16 + digit(at[3])));
        return 4;
    }
    if (at[0] == '\\')
        return 0;
    size_t count = 1, taken = 1;
    if (left >= 3 && at[1] == '\\' && at[2] == '{')
        taken = read_count(at, left, &count);
    for (; taken > 0 && count > 0; count--)
        add(to, at[0]);
    return taken;
}

/* Adds what a line means; false if it is no part of a table. */
static bool add_line(text *to, const char *line, size_t length) {
    bool is_ended = length == 0 || line[length - 1] != '\\';
    length -= !is_ended;
    for (size_t at = 0, taken; at < length; at += taken) {
        taken = add_sign(to, line + at, length - at);
        if (taken == 0)
            return false;
    }
    if (is_ended)
        add(to, '\n');
    return true;
}

/* The name and the fault line with which a script begins. */
static bool begin(const char *line, size_t length) {
    const char *colon = memchr(line, ':', length);
    size_t name = colon != NULL ? (size_t)(colon - line) : length, rest = name + 2 < length ? length - name - 2 : 0;
    if (colon == NULL || name == 0 || name >= MOST_NAME || rest + 1 >= MOST_NAME)
        return false;
    memcpy(it.name, line, name);
    it.name[name] = '\0';
    memcpy(it.fault, line + length - rest, rest);
    memcpy(it.fault + rest, rest > 0 ? "\n" : "", rest > 0 ? 2 : 1);
    it.script.length = it.transcript.length = 0;
    return true;
}

/* ---- A script ----------------------------------------------------------------------------------------------------- */

/* Whether what was written is this, octet for octet. */
static bool is_written(FILE *to, const char *wanted, size_t length) {
    bool is = (size_t)ftell(to) == length;
    rewind(to);
    for (size_t i = 0; is && i < length; i++)
        is = fgetc(to) == (unsigned char)wanted[i];
    return is;
}

/* The next line of a script, from a place on: its length, without its line feed. */
static size_t length_of_line(const text *of, size_t from) {
    const char *end = memchr(of->at + from, '\n', of->length - from);
    return end != NULL ? (size_t)(end - of->at) - from : of->length - from;
}

/* Plays it, and compares the transcript and the fault line that follows. */
static void play(FILE *to, const char *way, bool is_timed, bool by_exchange) {
    static station b;
    fault kind = NO_FAULT;
    size_t number = 0;
    rewind(to);
    station_begin(&b, to, it.name);
    b.is_timed = is_timed;
    b.by_exchange = by_exchange;
    for (size_t from = 0; kind == NO_FAULT && from < it.script.length; number++) {
        size_t length = length_of_line(&it.script, from);
        kind = station_obey(&b, it.script.at + from, length);
        from += length + 1;
    }
    station_end(&b);
    station_fault(to, kind, number);
    wants(is_written(to, it.transcript.at, it.transcript.length), "%s%s: another transcript or fault line", it.name, way);
}

/* Whether it changes how long timers run; a card that keeps its own has their lengths from its start. */
static bool changes_lengths(void) {
    bool does = false;
    for (size_t from = 0; from < it.script.length; from += length_of_line(&it.script, from) + 1)
        does |= it.script.length - from >= 7 && memcmp(it.script.at + from, "timers ", 7) == 0;
    return does && it.fault[0] == '\0';
}

/* Plays it in each way; one that begins nowhere is none. */
static bool play_all(FILE *to) {
    if (it.name[0] == '\0')
        return false;
    for (const char *at = it.fault; *at != '\0'; at++)
        add(&it.transcript, *at);
    play(to, "", false, false);
    play(to, ", pulled by lapd_exchange", false, true);
    if (!changes_lengths())
        play(to, ", with timers of its own", true, false);
    return true;
}

/* ---- All of them -------------------------------------------------------------------------------------------------- */

/* Reads a line of the table without its line feed; false if there is none. */
static bool next(FILE *from, text *line) {
    int c = fgetc(from);
    line->length = 0;
    for (; c != EOF && c != '\n'; c = fgetc(from))
        add(line, (char)c);
    add(line, '\0');
    line->length--;
    return c != EOF || line->length > 0;
}

/* A line of the table; one that begins a script has the one before played. */
static bool take(const text *line, unsigned *count, FILE *to) {
    const char *at = line->at;
    bool is_part = (at[0] == '|' || at[0] == '=') && (at[1] == ' ' || at[1] == '\0');
    if (line->length == 0 || at[0] == '#')
        return true;
    if (is_part)
        return *count > 0 && add_line(at[0] == '|' ? &it.script : &it.transcript, at + 1 + (at[1] == ' '), line->length - 1 - (at[1] == ' '));
    bool is_good = *count == 0 || play_all(to);
    ++*count;
    return is_good && begin(at, line->length);
}

bool check_scripts(const char *path) {
    FILE *from = fopen(path, "rb"), *to = tmpfile();
    static text line;
    unsigned count = 0;
    bool is_good = from != NULL && to != NULL;
    while (is_good && next(from, &line))
        is_good = take(&line, &count, to);
    is_good = is_good && count > 0 && play_all(to);
    wants(!is_good || count >= LEAST_SCRIPTS, "only %u scripts", count);
    if (from != NULL)
        fclose(from);
    if (to != NULL)
        fclose(to);
    return is_good;
}
