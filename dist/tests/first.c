/* first.c: what the example first.c says. */
#include <stdarg.h>
#include <stdio.h>
#include <string.h>

#include "check.h"

static char said[256];

/* Adds what the example prints. */
static int say(const char *form, ...) {
    size_t length = strlen(said);
    va_list words;
    va_start(words, form);
    int count = vsnprintf(said + length, sizeof said - length, form, words);
    va_end(words);
    return count;
}

#define main first
#define printf say
#include "../examples/first.c"

void check_first(void) {
    wants(first() == 0 && strcmp(said, "0 establish-indication 64\n0 tx 7E008173C4127E\nstored 0 limit 17470\n") == 0,
          "first.c says: %s", said);
}
