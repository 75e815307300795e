/* sections.h: which sections a configuration has, and which words are in them. */
#ifndef SECTIONS_H
#define SECTIONS_H

#include "configuration.h"
#include "values.h"

enum { SECTION_GATEWAY, SECTION_LINES, SECTION_SERVER, SECTION_ASP, SECTION_CAPTURE, SECTION_KINDS };
enum { MOST_SECTIONS = 1 + MOST_GROUPS + MOST_SERVERS + MOST_PROCESSES + MOST_CAPTURES, MOST_WORDS = 28 };

typedef struct {
    const char *name;
    size_t at; /* of its value, in the section's record */
    value_form form;
} section_word;

typedef struct {
    const char *name;
    bool is_named; /* there may be several, each with its own name, which is the first thing in its record */
    unsigned most;
    size_t count_at, at, size; /* in the configuration: how many there are, the first record, and how large each is */
    const section_word *words; /* the last one has no name */
} section_kind;

extern const section_kind section_kinds[SECTION_KINDS];

/* The place of a word of a section; -1: it is unknown. */
int section_word_at(unsigned kind, const char *name);

#endif
