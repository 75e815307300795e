/* configuration.c: the configuration, read by libinih word for word, and checked section by section. See configuration.h. */
#define _GNU_SOURCE

#include "configuration.h"

#include <ctype.h>
#include <errno.h>
#include <ini.h>
#include <stdarg.h>
#include <stdio.h>
#include <string.h>

#include "sections.h"

/* A file that is read: where, and which line each word of the present section stands on. */
typedef struct {
    configuration *to;
    const char *name;
    FILE *file;
    char *fault;
    unsigned line;
    int kind;      /* of the present section; -1: none began */
    void *record;  /* of the present section */
    unsigned began; /* the line of its head */
    unsigned said[MOST_WORDS];
    bool has_gateway, is_too_long;
    unsigned process_line[MOST_PROCESSES], capture_line[MOST_CAPTURES];
} reading;

/* The first fault alone is kept. It answers false. */
__attribute__((format(printf, 3, 4))) static bool fails(reading *own, unsigned line, const char *format, ...) {
    va_list words;
    if (own->fault[0] != 0)
        return false;
    int length = line == 0 ? snprintf(own->fault, CONFIGURATION_FAULT, "%s: ", own->name)
                           : snprintf(own->fault, CONFIGURATION_FAULT, "%s:%u: ", own->name, line);
    va_start(words, format);
    if (length > 0 && length < CONFIGURATION_FAULT)
        vsnprintf(own->fault + length, (size_t)(CONFIGURATION_FAULT - length), format, words);
    va_end(words);
    return false;
}

/* The line of a word of the present section; 0: it does not stand there. */
static unsigned said(const reading *own, const char *word) {
    int at = section_word_at((unsigned)own->kind, word);
    return at < 0 ? 0 : own->said[at];
}

static bool requires(reading *own, const char *word) {
    return said(own, word) != 0 || fails(own, own->began, "the section has no `%s`", word);
}

static void set_default(const reading *own, const char *word, uint32_t *value, uint32_t by_default) {
    if (said(own, word) == 0)
        *value = by_default;
}

/* ---- The end of a section: what it has by default, and what does not fit ---------------------------------------------- */

static uint32_t greatest(uint32_t one, uint32_t other) {
    return one > other ? one : other;
}

static void complete_lines(const reading *own, configuration_group *it) {
    bool is_bus = !it->is_primary && it->side == LAPD_NETWORK;
    set_default(own, "count", &it->count, 1);
    set_default(own, "establish", &it->establishes, true);
    set_default(own, "terminals", &it->terminals, is_bus ? 8 : 1);
    set_default(own, "k", &it->k, it->is_primary ? 7 : 1);
    set_default(own, "k16", &it->k16, it->is_primary ? 7 : 3);
    set_default(own, "queue", &it->queue, greatest(8, greatest(it->k, it->k16)));
    set_default(own, "unit-queue", &it->unit_queue, 4);
    set_default(own, "control", &it->control, 4);
    uint32_t enough = 2 * it->terminals * it->queue + it->unit_queue;
    set_default(own, "slots", &it->slots, enough < 8192 ? enough : 8192);
    set_default(own, "n201", &it->n201, 260);
    set_default(own, "n200", &it->n200, 3);
    set_default(own, "t200", &it->lengths.t200, 1000);
    set_default(own, "t201", &it->lengths.t201, 1000);
    set_default(own, "t202", &it->lengths.t202, 2000);
    set_default(own, "t203", &it->lengths.t203, 10000);
    set_default(own, "sapi", &it->sapi, 16);
    if (said(own, "teis") == 0 && it->side != LAPD_TERMINAL && (it->is_primary || it->side == LAPD_USER))
        it->teis.count = 1; /* TEI 0 */
    it->config = (lapd_config){
        .lines = 1, .terminals = (uint16_t)it->terminals, .k = (uint16_t)it->k, .k16 = (uint16_t)it->k16,
        .queue = (uint16_t)it->queue, .unit_queue = (uint16_t)it->unit_queue, .control = (uint16_t)it->control,
        .slots = (uint16_t)it->slots, .n201 = (uint16_t)it->n201, .n200 = (uint16_t)it->n200, .side = (uint16_t)it->side,
        .seed = 0, .sapi = (uint16_t)it->sapi, .reading = (uint16_t)it->reading};
}

static bool has_twice(const configuration_list *list) {
    for (uint64_t i = 0; i < configuration_count(list); i++)
        for (uint64_t j = 0; j < i; j++)
            if (configuration_number(list, (uint32_t)i) == configuration_number(list, (uint32_t)j))
                return true;
    return false;
}

/* The lines of a group, beside those of the groups before it. */
static bool lines_fit(reading *own, const configuration_group *it) {
    uint64_t all = it->count;
    if (it->count - 1 > UINT32_MAX - it->first)
        return fails(own, said(own, "first"), "the last line has an identifier over 4294967295");
    for (const configuration_group *other = own->to->group; other < it; other++) {
        all += other->count;
        if (it->first <= other->first + (other->count - 1) && other->first <= it->first + (it->count - 1))
            return fails(own, said(own, "first"), "lines `%s` and `%s` have an identifier in common", other->name, it->name);
    }
    return all <= MOST_LINES || fails(own, own->began, "there are more than %u lines", (unsigned)MOST_LINES);
}

static bool device_fits(reading *own, const configuration_group *it) {
    if (it->driver == DRIVER_FRAMES)
        return said(own, "device") == 0 || fails(own, said(own, "device"), "device: lines of the driver `frames` have none");
    if (!requires(own, "device"))
        return false;
    for (unsigned i = 0; it->driver == DRIVER_MISDN && i < it->device.count; i++)
        if (it->device.range[i].last > UINT8_MAX)
            return fails(own, said(own, "device"), "device: mISDN has devices 0 to 255");
    if (configuration_count(&it->device) != it->count)
        return fails(own, said(own, "device"), "device: there are %u lines and another number of devices", it->count);
    return !has_twice(&it->device) || fails(own, said(own, "device"), "device: one stands there twice");
}

static bool ends_lines(reading *own) {
    configuration_group *it = own->record;
    if (!requires(own, "first") || !requires(own, "kind"))
        return false;
    complete_lines(own, it);
    if (it->queue < greatest(it->k, it->k16))
        return fails(own, said(own, "queue") != 0 ? said(own, "queue") : own->began, "queue: it is less than a window");
    if (it->side == LAPD_TERMINAL && it->teis.count != 0)
        return fails(own, said(own, "teis"), "teis: a terminal asks the network for its TEI");
    if (it->side == LAPD_TERMINAL && it->terminals != 1)
        return fails(own, said(own, "terminals"), "terminals: the program is one terminal a line");
    if (configuration_count(&it->teis) > it->terminals)
        return fails(own, said(own, "teis") != 0 ? said(own, "teis") : own->began, "teis: they are more than `terminals`");
    if (has_twice(&it->teis))
        return fails(own, said(own, "teis"), "teis: one stands there twice");
    if (lapd_image_octets(&it->config) == 0)
        return fails(own, own->began, "no card has these numbers");
    return lines_fit(own, it) && device_fits(own, it);
}

static bool ends_server(reading *own) {
    configuration_server *it = own->record;
    if (!requires(own, "first") || !requires(own, "last"))
        return false;
    if (it->last < it->first)
        return fails(own, said(own, "last"), "last: it is less than `first`");
    for (const configuration_server *other = own->to->server; other < it; other++)
        if (it->first <= other->last && other->first <= it->last)
            return fails(own, said(own, "first"), "servers `%s` and `%s` have an identifier in common", other->name, it->name);
    set_default(own, "pending", &it->pending, 2000);
    set_default(own, "retain", &it->retains, true);
    return it->on_pending == 0 || fails(own, said(own, "on-pending"), "on-pending: no card can refuse a link yet, so it is `busy`");
}

static bool ends_process(reading *own) {
    configuration_process *it = own->record;
    own->process_line[own->to->processes - 1] = said(own, "servers");
    it->has_identifier = said(own, "identifier") != 0;
    return it->has_identifier || said(own, "address") != 0
           || fails(own, own->began, "the section has neither `address` nor `identifier`");
}

static bool ends_capture(reading *own) {
    configuration_capture *it = own->record;
    own->capture_line[own->to->captures - 1] = said(own, "lines");
    return requires(own, "lines")
           && (it->file[0] != 0 || it->gsmtap.count != 0 || fails(own, own->began, "the section has neither `file` nor `gsmtap`"));
}

static bool ends_gateway(reading *own) {
    set_default(own, "port", &own->to->port, 9900);
    set_default(own, "beat", &own->to->beat, 1000);
    return own->to->sctp.count != 0 || own->to->path[0] != 0
           || fails(own, own->began, "no server can join: the section has neither `sctp` nor `unix`");
}

static bool ends_section(reading *own) {
    switch (own->kind) {
    case SECTION_GATEWAY: return ends_gateway(own);
    case SECTION_LINES: return ends_lines(own);
    case SECTION_SERVER: return ends_server(own);
    case SECTION_ASP: return ends_process(own);
    case SECTION_CAPTURE: return ends_capture(own);
    default: return true;
    }
}

/* ---- What sections say of each other ---------------------------------------------------------------------------------- */

static bool has_server(const configuration *it, const char *name) {
    for (unsigned i = 0; i < it->servers; i++)
        if (strcmp(it->server[i].name, name) == 0)
            return true;
    return false;
}

static bool is_line(const configuration *it, uint32_t identifier) {
    for (unsigned i = 0; i < it->groups; i++)
        if (identifier >= it->group[i].first && identifier - it->group[i].first < it->group[i].count)
            return true;
    return false;
}

static bool names_are_known(reading *own) {
    for (unsigned i = 0; i < own->to->processes; i++)
        for (unsigned j = 0; j < own->to->process[i].servers; j++)
            if (!has_server(own->to, own->to->process[i].server[j]))
                return fails(own, own->process_line[i], "servers: there is no server `%s`", own->to->process[i].server[j]);
    for (unsigned i = 0; i < own->to->captures; i++)
        for (uint64_t j = 0; j < configuration_count(&own->to->capture[i].lines); j++)
            if (!is_line(own->to, configuration_number(&own->to->capture[i].lines, (uint32_t)j)))
                return fails(own, own->capture_line[i], "lines: there is no line %u",
                             configuration_number(&own->to->capture[i].lines, (uint32_t)j));
    return true;
}

static bool is_whole(reading *own) {
    if (!own->has_gateway)
        return fails(own, 0, "there is no section [gateway]");
    if (own->to->groups == 0)
        return fails(own, 0, "there is no section [lines NAME]");
    for (unsigned i = 0; i < own->to->groups && own->to->lines[0] == 0; i++)
        if (own->to->group[i].driver == DRIVER_FRAMES)
            return fails(own, 0, "[gateway] has no `lines`, and `%s` has the driver `frames`", own->to->group[i].name);
    return names_are_known(own);
}

/* ---- Line by line ----------------------------------------------------------------------------------------------------- */

/* A new record of a kind. */
static bool opens(reading *own, unsigned kind, const char *name) {
    const section_kind *of = &section_kinds[kind];
    char *base = (char *)own->to;
    if (!of->is_named) {
        if (own->has_gateway || name[0] != 0)
            return fails(own, own->line, own->has_gateway ? "there is a second section [gateway]" : "[gateway] has no name");
        own->has_gateway = true;
        own->record = base;
        return true;
    }
    unsigned *count = (unsigned *)(void *)(base + of->count_at);
    if (name[0] == 0 || strlen(name) >= NAME_ROOM)
        return fails(own, own->line, "a name has 1 to %u octets: [%s NAME]", (unsigned)NAME_ROOM - 1, of->name);
    for (unsigned i = 0; i < *count; i++)
        if (strcmp(base + of->at + i * of->size, name) == 0)
            return fails(own, own->line, "there is a second section [%s %s]", of->name, name);
    if (*count == of->most)
        return fails(own, own->line, "there are more than %u sections [%s NAME]", of->most, of->name);
    own->record = base + of->at + (*count)++ * of->size;
    strcpy(own->record, name);
    return true;
}

/* A section begins: [KIND] or [KIND NAME]. */
static bool begins_section(reading *own, const char *head, size_t length) {
    char text[80];
    if (!ends_section(own))
        return false;
    own->kind = -1;
    own->began = own->line;
    memset(own->said, 0, sizeof own->said);
    snprintf(text, sizeof text, "%.*s", (int)length, head);
    char *name = text + strcspn(text, " ");
    if (*name != 0)
        *name++ = 0;
    name += strspn(name, " ");
    for (unsigned kind = 0; kind < SECTION_KINDS; kind++)
        if (strcmp(text, section_kinds[kind].name) == 0) {
            own->kind = (int)kind;
            return opens(own, kind, name);
        }
    return fails(own, own->line, "there is no section [%s]", text);
}

/* Gives libinih the next line, so that it is known which one a word stands on. Without blanks before it, it is no continuation.
 * */
static char *next_line(char *text, int room, void *from) {
    reading *own = from;
    if (own->fault[0] != 0 || fgets(text, room, own->file) == NULL)
        return NULL;
    own->line++;
    size_t length = strlen(text), blanks = strspn(text, " \t");
    if (length + 1 == (size_t)room && text[length - 1] != '\n') {
        fails(own, own->line, "the line is longer than %d octets", room - 2);
        return NULL;
    }
    memmove(text, text + blanks, length - blanks + 1);
    const char *end = text[0] == '[' ? strchr(text, ']') : NULL;
    if (end != NULL)
        begins_section(own, text + 1, (size_t)(end - text - 1));
    return text;
}

/* A word of the present section, and its value. */
static int take_word(void *from, const char *section, const char *name, const char *value) {
    reading *own = from;
    (void)section;
    if (own->fault[0] != 0)
        return 0;
    if (own->kind < 0)
        return fails(own, own->line, "`%s` stands in no section", name);
    int at = section_word_at((unsigned)own->kind, name);
    if (at < 0)
        return fails(own, own->line, "there is no `%s` in [%s]", name, section_kinds[own->kind].name);
    if (own->said[at] != 0)
        return fails(own, own->line, "`%s` stands there twice", name);
    own->said[at] = own->line;
    const section_word *word = &section_kinds[own->kind].words[at];
    const char *wants = word->form.read((char *)own->record + word->at, value, &word->form);
    return wants == NULL || fails(own, own->line, "%s: `%s` is not %s", name, value, wants);
}

bool configuration_read(configuration *to, const char *file, char fault[CONFIGURATION_FAULT]) {
    static reading own;
    own = (reading){.to = to, .name = file, .fault = fault, .kind = -1};
    memset(to, 0, sizeof *to);
    fault[0] = 0;
    own.file = fopen(file, "r");
    if (own.file == NULL)
        return fails(&own, 0, "%s", strerror(errno));
    int wrong = ini_parse_stream(next_line, &own, take_word, &own);
    if (ferror(own.file))
        fails(&own, 0, "%s", strerror(errno));
    else if (wrong > 0)
        fails(&own, (unsigned)wrong, "the line is neither a section nor `word = value`");
    else if (wrong < 0)
        fails(&own, 0, "there is no memory");
    fclose(own.file);
    return fault[0] == 0 && ends_section(&own) && is_whole(&own);
}

unsigned configuration_lines_of_card(const configuration_group *group) {
    unsigned lines = 8192 / group->slots;
    return lines < LAPD_MOST_LINES ? lines : LAPD_MOST_LINES;
}
