/*
 * loop.h: the loop (sd-event) in which all happens, and its time: milliseconds from a moment on that no restart sets back, as
 * cards have it.
 */
#ifndef LOOP_H
#define LOOP_H

#include <stdbool.h>
#include <stdint.h>
#include <sys/socket.h>
#include <systemd/sd-event.h>

extern sd_event *loop;

/* Makes the loop. The time begins at 0. */
bool loop_begin(void);

/* The time goes on from this moment, that of a saved state. */
void loop_set_now(uint64_t moment);

uint64_t loop_now(void);

/* What another process on this machine needs to have the same time. */
uint64_t loop_origin(void);
void loop_set_origin(uint64_t from);

#define LOOP_NEVER UINT64_MAX

/* A connection to a listening socket, which does not wait; -1: there is none. If there are no descriptors left, it is closed at once,
 * so that the loop does not hear of it for ever. */
int loop_accept(int socket, struct sockaddr *peer, socklen_t *length);

/* A timer, which is stopped. When it is due, it stops. NULL: there is no memory. */
sd_event_source *loop_timer(sd_event_time_handler_t due, void *user);

/* Sets a timer to a moment; to LOOP_NEVER, it stops. */
void loop_set_timer(sd_event_source *timer, uint64_t moment);

#endif
