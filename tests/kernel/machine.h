/* machine.h: a virtual machine, from inside: its start and its end, modules, and time. */
#ifndef MACHINE_H
#define MACHINE_H

#include <stdbool.h>
#include <stdint.h>

/* Mounts /dev and /proc, has the console as standard input, output and error, puts the loopback device up, and loads mISDN. */
void machine_begin(void);

/* Loads a module from a file, or takes one off; says why not, and answers false, if that fails. */
bool machine_load(const char *file, const char *options);
bool machine_unload(const char *module);

/* Tells the errors of the kernel's log, if there are some, and powers off. */
void machine_end(void);

/* Milliseconds of the machine's monotonic time; and a wait of so many. */
uint64_t machine_now(void);
void machine_wait(unsigned milliseconds);

#endif
