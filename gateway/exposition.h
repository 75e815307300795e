/* exposition.h: what is counted, in the text form of Prometheus. */
#ifndef EXPOSITION_H
#define EXPOSITION_H

#include <stddef.h>

/* The text, which the caller frees; NULL: there is no memory. */
char *exposition(size_t *length);

#endif
