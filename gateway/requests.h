/* requests.h: what a server asks of the links of a line. */
#ifndef REQUESTS_H
#define REQUESTS_H

#include "iua.h"

struct line;

/* A QPTM message came, for this line alone: IUA_OK, or the error that answers it. */
unsigned request_made(struct line *own, const iua_message *message);

#endif
