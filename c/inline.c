/*
 * inline.c: what lapd.h defines inline, as symbols of the library: requests by name, texts, octets of memory, for languages
 * that read no header of C. tools/install adds it to liblapd.a and liblapd.so.1.
 */
#define LAPD_INLINE
#undef LAPD_CHECKED
#include "lapd.h"
