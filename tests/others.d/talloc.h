/*
 * talloc.h: as much of Samba's talloc as libosmocore's lapd_core.c and msgb.c ask for, over calloc, without its tree of
 * contexts.
 */
#ifndef OTHERS_TALLOC_H
#define OTHERS_TALLOC_H

#include <stdio.h>
#include <stdlib.h>
#include <string.h>

typedef void TALLOC_CTX;

static inline void *talloc_named_const(const void *of, size_t size, const char *name) {
    (void)of;
    (void)name;
    return calloc(1, size);
}
static inline int talloc_free(void *at) {
    free(at);
    return 0;
}
static inline char *talloc_strdup(const void *of, const char *text) {
    (void)of;
    return strdup(text);
}
static inline char *talloc_asprintf(const void *of, const char *format, ...) {
    return talloc_strdup(of, format);
}
#define talloc_size(of, size) talloc_named_const(of, size, "")
#define talloc_zero_size(of, size) talloc_named_const(of, size, "")
#define talloc_pool(of, size) talloc_named_const(of, size, "")
#define talloc_array(of, type, count) ((type *)talloc_named_const(of, sizeof(type) * (count), #type))
#define talloc_zero_array(of, type, count) talloc_array(of, type, count)
#define talloc_zero(of, type) talloc_array(of, type, 1)
#define talloc_set_name_const(at, name) ((void)(at))

#endif
