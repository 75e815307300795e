/* metrics.h: what is counted, and whether the program serves lines, over HTTP. */
#ifndef METRICS_H
#define METRICS_H

#include <stdbool.h>

#include "configuration.h"

/* Answers HTTP from now on, if the configuration has an address for it. False: it was told. */
bool metrics_begin(const configuration *from);
void metrics_end(void);

/* Whether GET /ready is answered with 200. */
void metrics_set_ready(bool is_ready);

#endif
