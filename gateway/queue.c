/* queue.c: messages that wait. See queue.h. */
#include "queue.h"

#include <stdlib.h>
#include <string.h>

#include "standby.h"

static size_t all;

static void append(queue *to, queued *it) {
    it->next = NULL;
    if (to->first == NULL)
        to->first = it;
    else
        to->last->next = it;
    to->last = it;
    to->count++;
    to->octets += it->length;
}

static queued *take_first(queue *from) {
    queued *it = from->first;
    from->first = it->next;
    from->count--;
    from->octets -= it->length;
    return it;
}

queued *queue_add(queue *to, uint32_t identifier, const uint8_t *octets, size_t length) {
    size_t whole = sizeof(queued) + length;
    queued *it = all + whole > MOST_OCTETS_OF_QUEUES ? NULL : malloc(whole);
    if (it == NULL)
        return NULL;
    *it = (queued){.identifier = identifier, .length = length};
    if (length > 0)
        memcpy(it->octets, octets, length);
    all += whole;
    append(to, it);
    return it;
}

queued *queue_add_below(queue *to, uint32_t identifier, const uint8_t *octets, size_t length) {
    return all > MOST_OCTETS_BELOW ? NULL : queue_add(to, identifier, octets, length);
}

void queue_drop(queue *from) {
    queued *it = take_first(from);
    if (it->number != 0)
        standby_gone(it->number);
    all -= sizeof *it + it->length;
    free(it);
}

void queue_clear(queue *from) {
    while (from->first != NULL)
        queue_drop(from);
}

void queue_move(queue *from, queue *to) {
    append(to, take_first(from));
}

size_t queue_all(void) {
    return all;
}
