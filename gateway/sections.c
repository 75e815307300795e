/* sections.c: the sections of a configuration, and their words. See sections.h. */
#include "sections.h"

#include <string.h>

static const char *const yes_or_no[] = {"no", "yes", NULL};
static const char *const kinds_of_line[] = {"basic", "primary", NULL};
static const char *const sides[] = {"network", "user", "terminal", NULL}; /* in the order of LAPD_NETWORK and so on */
static const char *const drivers[] = {"frames", "misdn", "dahdi", NULL};
static const char *const readings[] = {"profile", "annex-b", NULL};
static const char *const modes[] = {"override", "loadshare", NULL};
static const char *const for_pending[] = {"busy", "deny", NULL};

#define NUMBER(name, type, field, least, most) {name, offsetof(type, field), {value_number, least, most, NULL, 0}}
#define CHOICE(name, type, field, choice) {name, offsetof(type, field), {value_choice, 0, 0, choice, 0}}
#define LIST(name, type, field, least, most) {name, offsetof(type, field), {value_list, least, most, NULL, 0}}
#define PATH(name, type, field) {name, offsetof(type, field), {value_path, 0, 0, NULL, 0}}
#define LAST {NULL, 0, {NULL, 0, 0, NULL, 0}}

static const section_word of_gateway[] = {
    {"sctp", offsetof(configuration, sctp), {value_addresses, 0, MOST_ADDRESSES, NULL, 0}},
    NUMBER("port", configuration, port, 1, UINT16_MAX),
    PATH("unix", configuration, path),
    PATH("lines", configuration, lines),
    {"metrics", offsetof(configuration, metrics), {value_port, 0, 0, NULL, 0}},
    PATH("state", configuration, state),
    NUMBER("beat", configuration, beat, 100, 60000),
    PATH("standby", configuration, standby),
    LAST,
};

static const section_word of_lines[] = {
    NUMBER("first", configuration_group, first, 0, UINT32_MAX),
    NUMBER("count", configuration_group, count, 1, MOST_LINES),
    CHOICE("kind", configuration_group, is_primary, kinds_of_line),
    CHOICE("side", configuration_group, side, sides),
    CHOICE("driver", configuration_group, driver, drivers),
    LIST("device", configuration_group, device, 0, UINT16_MAX),
    CHOICE("reading", configuration_group, reading, readings),
    LIST("teis", configuration_group, teis, 0, 63),
    CHOICE("establish", configuration_group, establishes, yes_or_no),
    NUMBER("terminals", configuration_group, terminals, 1, 8),
    NUMBER("k", configuration_group, k, 1, 127),
    NUMBER("k16", configuration_group, k16, 1, 127),
    NUMBER("queue", configuration_group, queue, 1, 127),
    NUMBER("unit-queue", configuration_group, unit_queue, 1, 16),
    NUMBER("control", configuration_group, control, 2, 16),
    NUMBER("slots", configuration_group, slots, 1, 8192),
    NUMBER("n201", configuration_group, n201, 8, 260),
    NUMBER("n200", configuration_group, n200, 0, 10),
    NUMBER("t200", configuration_group, lengths.t200, 1, 3600000),
    NUMBER("t201", configuration_group, lengths.t201, 1, 3600000),
    NUMBER("t202", configuration_group, lengths.t202, 1, 3600000),
    NUMBER("t203", configuration_group, lengths.t203, 1, 3600000),
    NUMBER("sapi", configuration_group, sapi, 1, 62),
    LAST,
};

static const section_word of_server[] = {
    NUMBER("first", configuration_server, first, 0, UINT32_MAX),
    NUMBER("last", configuration_server, last, 0, UINT32_MAX),
    CHOICE("mode", configuration_server, mode, modes),
    NUMBER("pending", configuration_server, pending, 0, 3600000),
    CHOICE("on-pending", configuration_server, on_pending, for_pending),
    CHOICE("retain", configuration_server, retains, yes_or_no),
    LAST,
};

/* Addresses, among which the word `unix` may stand: the whole record is handed over. */
static const char *read_peers(void *to, const char *value, const value_form *form) {
    configuration_process *process = to;
    char item[80], others[240] = "";
    for (const char *rest = value; value_item(&rest, item, sizeof item) != NULL;)
        if (strcmp(item, "unix") == 0)
            process->is_unix = true;
        else if (strlen(others) + strlen(item) + 2 < sizeof others) {
            strcat(others, others[0] == 0 ? "" : ",");
            strcat(others, item[0] == 0 ? "?" : item);
        }
    return others[0] == 0 ? NULL : value_addresses(&process->address, others, form);
}

static const char *read_servers(void *to, const char *value, const value_form *form) {
    configuration_process *process = to;
    char item[80];
    (void)form;
    for (const char *rest = value; value_item(&rest, item, sizeof item) != NULL; process->servers++) {
        if (process->servers == MOST_OF_PROCESS || item[0] == 0 || strlen(item) >= NAME_ROOM)
            return "1 to 16 names of servers, with commas between them";
        strcpy(process->server[process->servers], item);
    }
    return NULL;
}

static const section_word of_asp[] = {
    {"address", 0, {read_peers, 0, MOST_ADDRESSES, NULL, 0}},
    NUMBER("identifier", configuration_process, identifier, 0, UINT32_MAX),
    {"servers", 0, {read_servers, 0, 0, NULL, 0}},
    CHOICE("blocked", configuration_process, is_blocked, yes_or_no),
    LAST,
};

static const section_word of_capture[] = {
    LIST("lines", configuration_capture, lines, 0, UINT32_MAX),
    PATH("file", configuration_capture, file),
    {"gsmtap", offsetof(configuration_capture, gsmtap), {value_port, 0, 0, NULL, 4729}},
    LAST,
};

#define KIND(name, most, count, field, words) \
    {name, true, most, offsetof(configuration, count), offsetof(configuration, field), \
     sizeof(((configuration *)0)->field[0]), words}

const section_kind section_kinds[SECTION_KINDS] = {
    {"gateway", false, 1, 0, 0, 0, of_gateway},
    KIND("lines", MOST_GROUPS, groups, group, of_lines),
    KIND("server", MOST_SERVERS, servers, server, of_server),
    KIND("asp", MOST_PROCESSES, processes, process, of_asp),
    KIND("capture", MOST_CAPTURES, captures, capture, of_capture),
};

int section_word_at(unsigned kind, const char *name) {
    for (int i = 0; section_kinds[kind].words[i].name != NULL; i++)
        if (strcmp(section_kinds[kind].words[i].name, name) == 0)
            return i;
    return -1;
}
