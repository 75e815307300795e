/*
 * transports.h: how messages go to processes and come from them: by SCTP, or by a Unix seqpacket socket. Both keep messages
 * apart; the latter has stream 0 alone.
 */
#ifndef TRANSPORTS_H
#define TRANSPORTS_H

#include <stdbool.h>

#include "associations.h"
#include "configuration.h"
#include "queue.h"

/* Opens the sockets at which processes join. False: it was told. */
bool transports_begin(const configuration *from);

/* Nobody joins any more. */
void transports_end(void);

/* A message goes. False: the socket has no room, or the association is broken now. */
bool transport_send(association *own, const queued *message);

/* Reads a message, which messages.h hears. False: none waits, or the association is broken now. */
bool transport_receive(association *own);

/* Whether one of the other end's addresses is among these. */
bool transport_has_peer(const association *own, const configuration_addresses *addresses);

#endif
