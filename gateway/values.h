/*
 * values.h: the values of a configuration, from their text. Each reader answers NULL, or what it wants instead, such as "a number
 * from 1 to 127".
 */
#ifndef VALUES_H
#define VALUES_H

#include "configuration.h"

typedef struct value_form value_form;

/* How the value of a word is read: by whom, and what is allowed. */
struct value_form {
    const char *(*read)(void *to, const char *value, const value_form *form);
    uint32_t least, most;      /* of a number; `most` is how many items a list of addresses or of names may have */
    const char *const *choice; /* of a choice: its words, then NULL; the value is the place of the word */
    uint16_t port;             /* of an address: the port that it has by default; with 0 it has none */
};

const char *value_number(void *to, const char *value, const value_form *form);    /* a uint32_t */
const char *value_choice(void *to, const char *value, const value_form *form);    /* a uint32_t */
const char *value_list(void *to, const char *value, const value_form *form);      /* a configuration_list */
const char *value_path(void *to, const char *value, const value_form *form);      /* PATH_ROOM octets */
const char *value_addresses(void *to, const char *value, const value_form *form); /* configuration_addresses */
const char *value_port(void *to, const char *value, const value_form *form);      /* the same, of one ADDRESS:PORT or PORT */

/* The next item of a list with commas, without the blanks around it; NULL after the last one. *rest is where to go on. */
const char *value_item(const char **rest, char *item, size_t room);

/* A number alone, in decimal digits. */
bool value_is_number(const char *text, uint32_t *number);

#endif
