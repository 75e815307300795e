/* acts.h: what both layers 3, and management, do at random: establish and release links, send data, take TEIs away, and so on. */
#ifndef ACTS_H
#define ACTS_H

#include <stdbool.h>

/* Something happens at a link of the kernel's, or at one of ours. */
void kernel_acts(void);
void ours_acts(void);

/* What is due: TEIs in doubt are checked, and busy links take data again, or all of them do. */
void clear_doubts(void);
void end_busy(bool all);

/* How often both sides were asked to establish a link at the same time. */
unsigned acts_collisions(void);
void acts_begin(void);

#endif
