/*
 * queue.h: messages, or contents, that wait. All queues together have a limit, so no peer can make the program take more memory
 * than the manual says.
 */
#ifndef QUEUE_H
#define QUEUE_H

#include <stdbool.h>
#include <stddef.h>
#include <stdint.h>

enum {
    MOST_OCTETS_OF_QUEUES = 64 << 20,
    MOST_OCTETS_BELOW = 48 << 20 /* with so many in all, none is taken in front of a link: the rest is for processes */
};

typedef struct queued queued;

struct queued {
    queued *next;
    uint32_t identifier; /* of the line that it is about */
    uint32_t mark;       /* the number of the heartbeat that follows it, at an association */
    uint16_t stream;
    uint64_t number;     /* by which a standby knows it; 0: it knows nothing of it */
    size_t length;
    uint8_t octets[];
};

typedef struct {
    queued *first, *last;
    unsigned count;
    size_t octets; /* of messages, without what the queue itself takes */
} queue;

/* A copy of these octets as the last of a queue; NULL: there is no room for it. The second is for contents in front of a link. */
queued *queue_add(queue *to, uint32_t identifier, const uint8_t *octets, size_t length);
queued *queue_add_below(queue *to, uint32_t identifier, const uint8_t *octets, size_t length);

/* The first goes away. The queue has one. */
void queue_drop(queue *from);
void queue_clear(queue *from);

/* The first of one queue becomes the last of another. */
void queue_move(queue *from, queue *to);

/* So many octets are in all queues, with what they themselves take. */
size_t queue_all(void);

#endif
