/* reload.h: a configuration that is read anew, by SIGHUP: what it does not name goes away, what it has anew begins, and what is
 * as it was goes on. */
#ifndef RELOAD_H
#define RELOAD_H

#include "configuration.h"

/* Reads the file, in place of the present configuration. What is faulty is told, and then nothing changes. */
void reload(configuration *present, const char *file);

#endif
