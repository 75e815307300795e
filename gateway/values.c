/* values.c: the values of a configuration, from their text. See values.h. */
#define _GNU_SOURCE

#include "values.h"

#include <arpa/inet.h>
#include <ctype.h>
#include <errno.h>
#include <stdio.h>
#include <stdlib.h>
#include <string.h>

enum { ITEM_ROOM = 80 };

static char wanted[160]; /* what the last reader wants instead */

/* ---- Numbers -------------------------------------------------------------------------------------------------------- */

bool value_is_number(const char *text, uint32_t *number) {
    char *end;
    if (!isdigit((unsigned char)text[0]))
        return false;
    errno = 0;
    unsigned long long value = strtoull(text, &end, 10);
    if (*end != 0 || errno != 0 || value > UINT32_MAX)
        return false;
    *number = (uint32_t)value;
    return true;
}

static const char *wants_number(const value_form *form) {
    snprintf(wanted, sizeof wanted, "a number from %u to %u", form->least, form->most);
    return wanted;
}

const char *value_number(void *to, const char *value, const value_form *form) {
    uint32_t number;
    if (!value_is_number(value, &number) || number < form->least || number > form->most)
        return wants_number(form);
    *(uint32_t *)to = number;
    return NULL;
}

const char *value_choice(void *to, const char *value, const value_form *form) {
    size_t length = 0;
    for (uint32_t i = 0; form->choice[i] != NULL; i++)
        if (strcmp(form->choice[i], value) == 0) {
            *(uint32_t *)to = i;
            return NULL;
        }
    for (uint32_t i = 0; form->choice[i] != NULL && length < sizeof wanted; i++)
        length += (size_t)snprintf(wanted + length, sizeof wanted - length, "%s%s", i == 0 ? "" : " or ", form->choice[i]);
    return wanted;
}

/* ---- Lists ---------------------------------------------------------------------------------------------------------- */

const char *value_item(const char **rest, char *item, size_t room) {
    const char *from = *rest;
    if (from == NULL)
        return NULL;
    from += strspn(from, " \t");
    size_t length = strcspn(from, ",");
    *rest = from[length] == ',' ? from + length + 1 : NULL;
    while (length > 0 && isspace((unsigned char)from[length - 1]))
        length--;
    if (length >= room)
        length = room - 1;
    memcpy(item, from, length);
    item[length] = 0;
    return item;
}

/* A number, or two with a hyphen between them. */
static bool is_range(char *item, const value_form *form, uint32_t *first, uint32_t *last) {
    char *hyphen = strchr(item, '-');
    if (hyphen != NULL)
        *hyphen = 0;
    if (!value_is_number(item, first) || !value_is_number(hyphen == NULL ? item : hyphen + 1, last))
        return false;
    return form->least <= *first && *first <= *last && *last <= form->most;
}

const char *value_list(void *to, const char *value, const value_form *form) {
    configuration_list *list = to;
    char item[ITEM_ROOM];
    list->count = 0;
    for (const char *rest = value; value_item(&rest, item, sizeof item) != NULL; list->count++)
        if (list->count == MOST_RANGES || !is_range(item, form, &list->range[list->count].first, &list->range[list->count].last)) {
            snprintf(wanted, sizeof wanted, "a list of numbers from %u to %u, such as 0-3, 8", form->least, form->most);
            return wanted;
        }
    return NULL;
}

uint64_t configuration_count(const configuration_list *list) {
    uint64_t count = 0;
    for (unsigned i = 0; i < list->count; i++)
        count += (uint64_t)list->range[i].last - list->range[i].first + 1;
    return count;
}

uint32_t configuration_number(const configuration_list *list, uint32_t place) {
    for (unsigned i = 0; i < list->count; i++) {
        uint32_t more = list->range[i].last - list->range[i].first;
        if (place <= more)
            return list->range[i].first + place;
        place -= more + 1;
    }
    return 0;
}

bool configuration_has(const configuration_list *list, uint32_t number) {
    for (unsigned i = 0; i < list->count; i++)
        if (list->range[i].first <= number && number <= list->range[i].last)
            return true;
    return false;
}

/* ---- Paths and addresses -------------------------------------------------------------------------------------------- */

const char *value_path(void *to, const char *value, const value_form *form) {
    (void)form;
    if (value[0] == 0 || strlen(value) >= PATH_ROOM - strlen(".new"))
        return "a path of 1 to 103 octets";
    memcpy(to, value, strlen(value) + 1);
    return NULL;
}

static bool is_address(const char *host, uint16_t port, configuration_address *to) {
    struct sockaddr_in four = {.sin_family = AF_INET, .sin_port = htons(port)};
    struct sockaddr_in6 six = {.sin6_family = AF_INET6, .sin6_port = htons(port)};
    memset(to, 0, sizeof *to);
    if (inet_pton(AF_INET, host, &four.sin_addr) == 1) {
        memcpy(&to->address, &four, sizeof four);
        to->length = sizeof four;
        return true;
    }
    if (inet_pton(AF_INET6, host, &six.sin6_addr) != 1)
        return false;
    memcpy(&to->address, &six, sizeof six);
    to->length = sizeof six;
    return true;
}

const char *value_addresses(void *to, const char *value, const value_form *form) {
    configuration_addresses *addresses = to;
    char item[ITEM_ROOM];
    addresses->count = 0;
    for (const char *rest = value; value_item(&rest, item, sizeof item) != NULL; addresses->count++)
        if (addresses->count == form->most || !is_address(item, form->port, &addresses->at[addresses->count])) {
            snprintf(wanted, sizeof wanted, "1 to %u addresses of IPv4 or IPv6, with commas between them", form->most);
            return wanted;
        }
    return NULL;
}

/* PORT, ADDRESS:PORT or [ADDRESS]:PORT; with a port by default, ADDRESS or [ADDRESS], too. */
static bool is_port(char *text, const value_form *form, configuration_address *to) {
    uint32_t port = form->port;
    if (form->port == 0 && value_is_number(text, &port))
        return port >= 1 && port <= UINT16_MAX && is_address("127.0.0.1", (uint16_t)port, to);
    char *host = text, *colon = strrchr(text, ':');
    if (text[0] == '[') {
        char *end = strchr(text, ']');
        if (end == NULL || (end[1] != 0 && end[1] != ':'))
            return false;
        host = text + 1;
        colon = end[1] == ':' ? end + 1 : NULL;
        *end = 0;
    } else if (colon != NULL && strchr(text, ':') != colon)
        colon = NULL; /* of IPv6, without brackets and without a port */
    if (colon != NULL) {
        *colon = 0;
        if (!value_is_number(colon + 1, &port))
            return false;
    }
    return port >= 1 && port <= UINT16_MAX && is_address(host, (uint16_t)port, to);
}

const char *value_port(void *to, const char *value, const value_form *form) {
    configuration_addresses *addresses = to;
    char text[ITEM_ROOM];
    addresses->count = 1;
    if ((size_t)snprintf(text, sizeof text, "%s", value) < sizeof text && is_port(text, form, &addresses->at[0]))
        return NULL;
    return form->port == 0 ? "PORT or ADDRESS:PORT" : "ADDRESS or ADDRESS:PORT";
}
