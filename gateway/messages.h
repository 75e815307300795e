/* messages.h: what processes of servers say, and how it is answered. */
#ifndef MESSAGES_H
#define MESSAGES_H

#include <stddef.h>
#include <stdint.h>

#include "associations.h"

/* A message came on a stream. */
void message_came(association *own, unsigned stream, const uint8_t *octets, size_t length);

#endif
