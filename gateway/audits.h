/* audits.h: TEIs that no terminal has any more. If a terminal gets none, since the line's table is full, the network asks for
 * each of them in turn whether it is still in use: one that nobody has leaves the line. */
#ifndef AUDITS_H
#define AUDITS_H

struct line;

/* A message of TEI management came from the line. */
void audit_hears(struct line *own);

/* An audit that runs asks for the next TEI, if it is time. */
void audit_goes_on(struct line *own);

#endif
