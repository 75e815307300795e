/* check.h: the parts of check, and what they count. */
#ifndef CHECK_H
#define CHECK_H

#include <stdbool.h>

#ifdef __GNUC__
__attribute__((format(printf, 2, 3)))
#endif
/* Counts what passed and what failed, and tells what failed. */
void wants(bool is, const char *what, ...);

/* Plays all scripts of a table. Answers false if it can't be read. */
bool check_scripts(const char *path);

void check_facing(void);
void check_wrong(void);
void check_null(void);
void check_first(void);

#endif
