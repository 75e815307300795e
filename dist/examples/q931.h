/* q931.h: what a small layer 3 answers to a message of Q.931: a call is connected, on channel B1, and cleared as it is asked.
 * The call reference has one octet at basic access, and two at primary rate. */
#ifndef Q931_H
#define Q931_H

#include <stdbool.h>
#include <stddef.h>
#include <stdint.h>
#include <string.h>

enum { Q931_PROTOCOL = 0x08, Q931_MOST_ANSWER = 10 };

/* Writes the answer, and says how many octets it has: 0 where there is none. */
static inline size_t q931_answer(const uint8_t *message, size_t length, uint8_t answer[Q931_MOST_ANSWER]) {
    enum { OTHER_SIDE = 0x80 };
    enum { SETUP = 0x05, CONNECT = 0x07, DISCONNECT = 0x45, RELEASE = 0x4D, RELEASE_COMPLETE = 0x5A };
    static const uint8_t basic_b1[] = {0x18, 1, 0x89}, primary_b1[] = {0x18, 3, 0xA9, 0x83, 0x81};
    if (length < 4 || message[0] != Q931_PROTOCOL || message[1] < 1 || message[1] > 2 || length < 3u + message[1])
        return 0;
    bool is_primary = message[1] == 2;
    size_t type = 2u + message[1], channel = is_primary ? sizeof primary_b1 : sizeof basic_b1;
    memcpy(answer, message, type);
    answer[2] ^= OTHER_SIDE;
    switch (message[type]) {
    case SETUP:
        answer[type] = CONNECT;
        memcpy(answer + type + 1, is_primary ? primary_b1 : basic_b1, channel);
        return type + 1 + channel;
    case DISCONNECT: answer[type] = RELEASE; return type + 1;
    case RELEASE: answer[type] = RELEASE_COMPLETE; return type + 1;
    default: return 0;
    }
}

#endif
