/*
 * tapped.h: what a tap on the line of a test hears, before anything is lost, for lapd-monitor: lines MS N|U HEX. They go to files
 * in the folder that TAPPED names, if it does: one for each run, and none otherwise. For tests alone.
 */
#ifndef TAPPED_H
#define TAPPED_H

#include <stdbool.h>
#include <stdint.h>
#include <stdio.h>
#include <stdlib.h>

static FILE *tapped_file;

/* From now on what is tapped is of this run. */
static void tapped_begin(const char *name, unsigned number) {
    char path[4096];
    const char *folder = getenv("TAPPED");
    if (tapped_file != NULL)
        fclose(tapped_file);
    tapped_file = NULL;
    if (folder != NULL && snprintf(path, sizeof path, "%s/%s-%u.txt", folder, name, number) < (int)sizeof path)
        tapped_file = fopen(path, "w");
}

static void tapped(uint64_t ms, bool is_from_network, const void *octets, size_t length) {
    if (tapped_file == NULL)
        return;
    fprintf(tapped_file, "%llu %c ", (unsigned long long)ms, is_from_network ? 'N' : 'U');
    for (size_t i = 0; i < length; i++)
        fprintf(tapped_file, "%02X", ((const uint8_t *)octets)[i]);
    fputc('\n', tapped_file);
    fflush(tapped_file);
}

#endif
