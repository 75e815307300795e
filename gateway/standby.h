/*
 * standby.h: a second process with the same configuration, on the same machine, which goes on when the first is gone. Lines,
 * their links and their calls survive that; associations end, as at a restart.
 *
 * A card does the same for the same calls. So the standby is handed the state as it joins, and from then on, turn by turn, each
 * call that was made on a card, each line that changed, and which messages wait for a server. What a turn led to goes out only
 * after that: whatever anybody has seen, the standby knows. A frame that was taken, and a call that was not handed over yet, may
 * be lost with the first process, as on a line. The lines' descriptors are open in both.
 *
 * A lock beside the socket says who is active. The kernel gives it back when a process is gone, however it ended.
 */
#ifndef STANDBY_H
#define STANDBY_H

#include <stdbool.h>
#include <stddef.h>
#include <stdint.h>

#include "configuration.h"
#include "queue.h"

struct card;
struct line;

/* ---- Of the active process ---------------------------------------------------------------------------------------------- */

typedef enum { STANDBY_TIME, STANDBY_FRAME, STANDBY_FAILED, STANDBY_ASK, STANDBY_DOWN, STANDBY_TAKE } standby_call_kind;

/* A call that is made on a card. */
typedef struct {
    standby_call_kind kind;
    uint64_t now;
    unsigned line;
    uint8_t request, service, tei; /* of an ask. The cause of a failed frame is a request, and so is the place of LAPD_DOWN */
    const uint8_t *octets;
    size_t length;
} standby_call;

/* From now on this process is the active one, and a standby may join. False: it was told. */
bool standby_serve(const configuration *from);

/* What happens, for the standby. Without one nothing is kept. */
void standby_made(const struct card *on, const standby_call *call);
void standby_changed(struct line *own);
void standby_added(queued *message);
void standby_gone(uint64_t number);

/* A line ends. */
void standby_forget(const struct line *own);

/* The descriptor of a line is another: -1 if it has none. */
void standby_descriptor(const struct line *own, int fd);

/* What happened since is handed over, in one write. */
void standby_hand_over(void);

/* The configuration has changed: the standby begins anew. */
void standby_begin_anew(void);

/* ---- Of the standby ----------------------------------------------------------------------------------------------------- */

typedef enum { STANDBY_ACTIVE, STANDBY_WAITS, STANDBY_FAULT } standby_role;

/* Whether this process is active now. If another is, and this one may wait, it follows that one, and calls `goes_on` when that is
 * gone. A fault was told. */
standby_role standby_begin(const configuration *from, bool may_wait, void (*goes_on)(void));

/* The active process changed, or this one was too slow: the program begins anew, with the same words. */
void standby_set_words(char **words);

#endif
