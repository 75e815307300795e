/* A script's lines as words, numbers and octets: see words.h. */
#include "words.h"

#include <stddef.h>
#include <stdio.h>
#include <string.h>

#include "lapd.h"

typedef struct {
    const char *at;
    size_t length;
} word;

/* A word of the language: how many words follow it, of which the last may be octets. */
typedef struct {
    const char *name;
    verbs verb;
    uint8_t request, service;
    size_t numbers;
    bool octets;
    uint32_t least, most; /* of the last number, but for a card line's and a TEI's */
} meaning;

enum { ANY = 65535, MOST_TEI = 255 };

static const meaning meanings[] = {
    /* tools/names: words */
    {"rx", RX, 0, 0, 1, true, 0, ANY},
    {"in", IN, 0, 0, 1, true, 0, ANY},
    {"pull", PULL, 0, 0, 2, false, 1, 4096},
    {"next", NEXT, 0, 0, 1, false, 0, ANY},
    {"wait", WAIT, 0, 0, 1, false, 0, 3600000},
    {"stored", STORED, 0, 0, 0, false, 0, ANY},
    {"losses", LOSSES, 0, 0, 0, false, 0, ANY},
    {"save", SAVE, 0, 0, 0, false, 0, ANY},
    {"restore", RESTORE, 0, 0, 0, false, 0, ANY},
    {"counters", COUNTERS, 0, 0, 1, false, 0, ANY},
    {"messages", MESSAGES, 0, 0, 1, false, 0, ANY},
    {"down", DOWN, 0, 0, 1, false, 0, ANY},
    {"ask", REQUEST, LAPD_ASK_TEI, LAPD_CALL, 1, false, 0, ANY},
    {"verify", REQUEST, LAPD_VERIFY_TEI, LAPD_CALL, 2, false, 0, MOST_TEI},
    {"assign", REQUEST, LAPD_ASSIGN, LAPD_CALL, 2, false, 0, MOST_TEI},
    {"remove", REQUEST, LAPD_REMOVE, LAPD_CALL, 2, false, 0, MOST_TEI},
    {"check", REQUEST, LAPD_CHECK, LAPD_CALL, 2, false, 0, MOST_TEI},
    {"disown", REQUEST, LAPD_DISOWN, LAPD_CALL, 2, false, 0, MOST_TEI},
    {"establish", REQUEST, LAPD_ESTABLISH, LAPD_CALL, 2, false, 0, MOST_TEI},
    {"release", REQUEST, LAPD_RELEASE, LAPD_CALL, 2, false, 0, MOST_TEI},
    {"busy", REQUEST, LAPD_BUSY, LAPD_CALL, 2, false, 0, MOST_TEI},
    {"ready", REQUEST, LAPD_READY, LAPD_CALL, 2, false, 0, MOST_TEI},
    {"deactivate", REQUEST, LAPD_DEACTIVATE, LAPD_CALL, 2, false, 0, MOST_TEI},
    {"data", REQUEST, LAPD_DATA, LAPD_CALL, 2, true, 0, MOST_TEI},
    {"unit", REQUEST, LAPD_UNIT, LAPD_CALL, 2, true, 0, MOST_TEI},
    {"establish16", REQUEST, LAPD_ESTABLISH, LAPD_PACKET, 2, false, 0, MOST_TEI},
    {"release16", REQUEST, LAPD_RELEASE, LAPD_PACKET, 2, false, 0, MOST_TEI},
    {"busy16", REQUEST, LAPD_BUSY, LAPD_PACKET, 2, false, 0, MOST_TEI},
    {"ready16", REQUEST, LAPD_READY, LAPD_PACKET, 2, false, 0, MOST_TEI},
    {"deactivate16", REQUEST, LAPD_DEACTIVATE, LAPD_PACKET, 2, false, 0, MOST_TEI},
    {"data16", REQUEST, LAPD_DATA, LAPD_PACKET, 2, true, 0, MOST_TEI},
    {"unit16", REQUEST, LAPD_UNIT, LAPD_PACKET, 2, true, 0, MOST_TEI},
    /* tools/names: end */
};

/* A word that may stand at the end of a card line, from a place on, with so many words after it. It sets a field by how many
 * these are, and the word after it says a number. */
typedef struct {
    const char *word;
    size_t from_place, least, most, field, number;
    uint16_t names[2];
} ending;

/* tools/names: card_line */
enum { LEAST_NUMBERS = 9, IF_LEFT_OUT = 2, MOST_WORDS = 17 };
static const size_t numbers[] = {offsetof(lapd_config, lines), offsetof(lapd_config, terminals),
                                 offsetof(lapd_config, k), offsetof(lapd_config, queue),
                                 offsetof(lapd_config, unit_queue), offsetof(lapd_config, control),
                                 offsetof(lapd_config, slots), offsetof(lapd_config, n201), offsetof(lapd_config, n200),
                                 offsetof(lapd_config, k16)};
static const ending endings[] = {
    {"user", 9, 0, 1, offsetof(lapd_config, side), offsetof(lapd_config, seed), {LAPD_USER, LAPD_TERMINAL}},
    {"sapi", 0, 1, 1, offsetof(lapd_config, sapi), offsetof(lapd_config, sapi), {0, 0}},
    {"annex-b", 0, 0, 0, offsetof(lapd_config, reading), offsetof(lapd_config, reading), {LAPD_ANNEX_B, 0}},
};
/* tools/names: end */
enum { MOST_NUMBERS = sizeof numbers / sizeof *numbers, ENDINGS = sizeof endings / sizeof *endings };

const char *fault_text(fault kind) {
    static const char *const texts[] = {
        "none",        "too long", "unknown word", "bad number of words", "bad number", "bad octets", "bad cause", "no card",
        "second card", "bad card", "wrong card",   "bad line",            "bad frame",  "time over",  "out of memory",
    };
    return texts[kind];
}

static bool is_word(word w, const char *name) {
    return w.length == strlen(name) && memcmp(w.at, name, w.length) == 0;
}

/* Each single space separates two words. Answers how many there are; no more than MOST_WORDS are kept. */
static size_t split(const char *line, size_t length, word *words) {
    size_t count = 0;
    for (size_t from = 0, to = 0; to <= length; to++) {
        if (to < length && line[to] != ' ')
            continue;
        if (count < MOST_WORDS)
            words[count] = (word){line + from, to - from};
        count++;
        from = to + 1;
    }
    return count;
}

static bool read_number(word w, uint32_t least, uint32_t most, uint32_t *number) {
    uint32_t value = 0;
    for (size_t i = 0; i < w.length; i++) {
        if (w.at[i] < '0' || w.at[i] > '9')
            return false;
        value = value > most ? value : value * 10 + (uint32_t)(w.at[i] - '0');
    }
    *number = value;
    return w.length > 0 && least <= value && value <= most;
}

static int digit(char c) {
    const char *digits = "0123456789ABCDEF0123456789abcdef", *at = memchr(digits, c, 32);
    return at ? (int)(at - digits) % 16 : -1;
}

static bool read_octets(word w, command *read) {
    read->length = 0;
    if (is_word(w, "-"))
        return true;
    for (size_t i = 0; i < w.length; i += 2) {
        int high = digit(w.at[i]), low = i + 1 < w.length ? digit(w.at[i + 1]) : -1;
        if (high < 0 || low < 0)
            return false;
        read->octets[read->length++] = (uint8_t)(high * 16 + low);
    }
    return true;
}

static void set_field(lapd_config *read, size_t place, uint16_t value) {
    memcpy((char *)read + place, &value, sizeof value);
}

/* What is in no range is the greatest number, as 0 would mean what is usual. */
static fault read_field(word w, lapd_config *read, size_t place, bool is_never_0) {
    uint32_t number;
    fault found = read_number(w, 0, ANY, &number) ? NO_FAULT : BAD_NUMBER;
    set_field(read, place, is_never_0 && number == 0 ? UINT16_MAX : (uint16_t)number);
    return found;
}

/* Where an ending stands, at the end of so many words; else it is their number. */
static size_t place_of(const ending *it, const word *words, size_t count) {
    for (size_t more = it->least; more <= it->most; more++)
        if (count > it->from_place + more && is_word(words[count - 1 - more], it->word))
            return count - 1 - more;
    return count;
}

static fault read_ending(const ending *it, const word *after, size_t count, lapd_config *read) {
    set_field(read, it->field, it->names[count]);
    return count == 0 ? NO_FAULT : read_field(*after, read, it->number, it->number == it->field);
}

/* The numbers of a configuration, and the endings after them, read from the end. */
static fault read_config(const word *words, size_t count, lapd_config *read) {
    fault found = NO_FAULT;
    if (count >= MOST_WORDS)
        return BAD_NUMBER_OF_WORDS;
    for (size_t i = ENDINGS; i-- > 0;) {
        size_t at = place_of(&endings[i], words, count);
        if (at < count && read_ending(&endings[i], &words[at + 1], count - 1 - at, read) != NO_FAULT)
            found = BAD_NUMBER;
        count = at;
    }
    if (count < LEAST_NUMBERS || count > MOST_NUMBERS)
        return BAD_NUMBER_OF_WORDS;
    for (size_t i = 0; i < MOST_NUMBERS; i++)
        if (read_field(words[i < count ? i : IF_LEFT_OUT], read, numbers[i], false) != NO_FAULT)
            found = BAD_NUMBER;
    return found;
}

static fault read_card(const word *words, size_t count, bool for_frames, command *read) {
    static const lapd_config none;
    read->verb = CARD;
    read->for_frames = for_frames;
    read->config = none;
    return read_config(words, count, &read->config);
}

/* T200, T203 and T201, each of them a millisecond to an hour; and T202, which is two seconds if it is left out. */
static fault read_timers(const word *words, size_t count, command *read) {
    read->verb = TIMERS;
    read->numbers[3] = 2000;
    if (count != 3 && count != 4)
        return BAD_NUMBER_OF_WORDS;
    for (size_t i = 0; i < count; i++)
        if (!read_number(words[i], 1, 3600000, &read->numbers[i]))
            return BAD_NUMBER;
    return NO_FAULT;
}

/* A line, and why its controller has no frame. */
static fault read_failed(const word *words, size_t count, command *read) {
    static const uint8_t causes[] = {LAPD_ABORT, LAPD_RAGGED, LAPD_SHORT, LAPD_FCS};
    read->verb = FAILED;
    if (count != 2)
        return BAD_NUMBER_OF_WORDS;
    if (!read_number(words[0], 0, ANY, &read->numbers[0]))
        return BAD_NUMBER;
    for (size_t i = 0; i < sizeof causes; i++)
        if (is_word(words[1], lapd_cause_text(causes[i]))) {
            read->cause = causes[i];
            return NO_FAULT;
        }
    return BAD_CAUSE;
}

static fault read_rest(const meaning *means, const word *words, size_t count, command *read) {
    read->verb = means->verb;
    read->request = means->request;
    read->service = means->service;
    if (count != means->numbers + means->octets)
        return BAD_NUMBER_OF_WORDS;
    for (size_t i = 0; i < means->numbers; i++) {
        bool last = i + 1 == means->numbers;
        if (!read_number(words[i], last ? means->least : 0, last ? means->most : ANY, &read->numbers[i]))
            return BAD_NUMBER;
    }
    read->length = 0;
    return means->octets && !read_octets(words[count - 1], read) ? BAD_OCTETS : NO_FAULT;
}

fault read_command(const char *line, size_t length, command *read) {
    word words[MOST_WORDS];
    size_t count = split(line, length, words) - 1;
    if (is_word(words[0], "card") || is_word(words[0], "frames"))
        return read_card(words + 1, count, is_word(words[0], "frames"), read);
    if (is_word(words[0], "failed"))
        return read_failed(words + 1, count, read);
    if (is_word(words[0], "timers"))
        return read_timers(words + 1, count, read);
    for (size_t i = 0; i < sizeof meanings / sizeof *meanings; i++)
        if (is_word(words[0], meanings[i].name))
            return read_rest(&meanings[i], words + 1, count, read);
    return UNKNOWN_WORD;
}

bool next_line(char *line, size_t *length) {
    int c = getchar();
    if (c == EOF)
        return false;
    for (*length = 0; c != EOF && c != '\n'; c = getchar())
        if ((*length)++ < MOST_LINE)
            line[*length - 1] = (char)c;
    return true;
}
