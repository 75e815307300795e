/*
 * state.h: the state of all lines, saved as the program ends, and read as it starts: the cards, what servers were told, and what
 * waits. The file is written whole or not at all, and has a check.
 */
#ifndef STATE_H
#define STATE_H

#include <stdbool.h>
#include <stdint.h>

#include "configuration.h"
#include "record.h"

#define STATE_MARK "LAPD-GATEWAY 1\n"

/* Writes the state. False: it was told, and the file is as it was. */
bool state_save(const char *path);

/* Reads the state, before lines begin: groups that are as they were go on, and the time with them. The file goes away then, as it
 * is true only once. Without a good file nothing happens. */
void state_restore(const char *path);

/* The same state, for a standby; and a line of it. Read, it is gone on from if it is applied: groups that go on are restored
 * then. */
struct line;
void state_put(record *to);
void state_put_line(record *to, const struct line *it);
bool state_get(record_reader *from, bool applies);
void state_get_line(record_reader *from, struct line *to);

/* A standby goes on from the state that it has: what it does not know of layer 1 and of servers, it waits for. */
void state_go_on(void);

/* What a group has to have in common with one that goes on from its cards; and the time of the day, in milliseconds. */
void state_put_form(record *to, const configuration_group *it);
uint64_t state_real_time(void);

#endif
