/*
 * after_noise.h: what is drawn of a run with noise. Noise changes octets on their way to one end or to both: in some stretch of
 * time, or in frames of one kind. When it begins and ends, and when layer 3 asks, is random, or is tied to a frame or an
 * expiry: so commands, answers and REJ are lost as noise ends, and both ends enquire at once. For tests alone.
 */
#ifndef AFTER_NOISE_H
#define AFTER_NOISE_H

#include "ends.h"

enum { MOST_BURSTS = 4, MOST_BATCHES = 4, MOST_MESSAGES = 40, N201 = 260, CONTROL = 4, QUEUE = 8 };
enum { SLOW = 2, FAST = 8 }; /* octets in a millisecond, at 16 and at 64 kbit/s */

/* What happens at an end: it begins a frame of a kind, or ends one, or T200 falls due. */
enum { INFORMATION = 1, POLL = 2, FINAL = 4, ACKNOWLEDGEMENT = 8, REJ = 16, EXPIRY = 32, BEGINS = 64 };

/* A beat; or the beat in which something happens at an end for the `left`-th time, with some beats more. */
typedef struct {
    int what, who, left;
    long more, at, latest;
} moment;

/* Noise: in a stretch of time each octet with a chance; or so many frames of a kind. */
typedef struct {
    int at_ends;    /* 1 and 2 in a sum: to which ends the octets go */
    int percent, way;
    int kind, left; /* of frames, or 0 */
    moment from, until;
} burst;

typedef struct {
    int who, left;
    size_t length;
    moment when;
} batch;

typedef struct {
    uint32_t seed;
    size_t length;
    bool is_given_up;
} message;

typedef struct {
    int rate, way, n200, longest;
    int answered;                   /* in so many octet times a command is answered */
    long most_t200;                 /* the longer T200, in octet times */
    bool least;                     /* T200 of both ends is the least, and as many octets are in transit as the page has */
    long beat, now;
    end ends[2];
    bool hits[2][MOST_IN_TRANSIT];  /* the octets in transit from an end that noise will change */
    burst bursts[MOST_BURSTS];
    batch batches[MOST_BATCHES];
    int burst_count, batch_count;
    int caller;
    moment call;
    bool is_asked;                  /* the call */
    message granted[2][MOST_MESSAGES];
    int granted_count[2], next[2];  /* next: which one of this end is to be told next */
    int up[2];                      /* establishments that were told */
    long noise, base, up_base;      /* the beats of the latest noise, and of that or the latest request for data, or for the call */
    int untold;                     /* the most at one end, at `base` */
    bool is_over, is_given_up;      /* N200 is used up; a message is given up */
    bool is_forged;                 /* noise made a frame */
    const char *wrong;
    int fault;                      /* what the world does wrong, or 0 */
} world;

/* Draws a run, up to its first beat: its line, timers, noise and requests. */
void draw(world *w);

/* Whether a moment has come. */
bool has_come(const world *w, const moment *m);

/* Something happens at an end: moments come that are tied to it, and noise that hits such frames hits one more. */
void happened(world *w, int who, int what);

/* What kind of frame of an end this is. */
int kind_of(const end *e, const uint8_t *frame, size_t length);

/* What noise makes of the octet that comes to an end now, or NO_NOISE: an octet or a bit is another, or no bit comes, which
 * is all 1s. */
int noise_at(const world *w, int who);

#endif
