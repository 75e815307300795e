/*
 * libpri_terminal.h: libpri as the terminal of a basic access line, point to multipoint, for interop.c, interop_frames.c,
 * interop_standby.c, interop_saved.c and gateway_day.c; as the network of a primary rate access, point to point, for
 * interop_trunk.c, and of a basic access line, point to multipoint, for interop_terminals.c.
 * Its frames go by two functions of the test's; what it says is shown where VERBOSE is set.
 */
#ifndef LIBPRI_TERMINAL_H
#define LIBPRI_TERMINAL_H

#include <libpri.h>
#include <stdint.h>

/* The terminal, over this file, or -1. libpri hands over and takes frames with two octets of room for a check. */
struct pri *libpri_terminal(int file, pri_io_cb take, pri_io_cb give);

/* The network in the same way: it begins to establish the link. */
struct pri *libpri_network(int file, pri_io_cb take, pri_io_cb give);

/* The network of a basic access line in the same way: it assigns, checks and removes TEIs. */
struct pri *libpri_access(int file, pri_io_cb take, pri_io_cb give);

/* It calls a subscriber. */
q931_call *libpri_calls(struct pri *terminal);

/* Milliseconds of the system's monotonic time. */
uint64_t monotonic(void);

#endif
