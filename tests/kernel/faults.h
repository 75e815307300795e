/* faults.h: a log of a run, and what in it is a fault. */
#ifndef FAULTS_H
#define FAULTS_H

#include <stdbool.h>
#include <stddef.h>
#include <stdint.h>

typedef enum {
    FAULT_GAP,           /* messages are missing before one that came, and no note told of it */
    FAULT_TWICE,         /* a message came again, or too late */
    FAULT_INVENTED,      /* a message came that none sent */
    FAULT_MISSING,       /* the last messages did not come */
    FAULT_KERNEL_NOTE,   /* the kernel's layer 2 told what can't be */
    FAULT_OUR_NOTE,      /* our card did */
    FAULT_STATES_DIFFER, /* in the end a link is up at one side alone */
    FAULT_TEI_TWICE,     /* two terminals have a TEI */
    FAULT_OUR_FRAME,     /* our card sent a frame that Q.921 does not allow */
    FAULT_STUCK,         /* a request was never answered */
    FAULT_STATUS,        /* a call answered another status than it may */
    FAULT_UNIT,          /* unit data came that none sent, or is missing without a loss */
    FAULT_KINDS
} fault_kind;

#ifdef __GNUC__
#define LIKE_PRINTF(at) __attribute__((format(printf, at, at + 1)))
#else
#define LIKE_PRINTF(at)
#endif

/* A run begins: time and log are empty. */
void faults_begin(void);

/* Milliseconds since the run began. */
uint64_t now(void);

/* A line of the log; and one with a fault. */
void note(const char *format, ...) LIKE_PRINTF(1);
void fault(fault_kind kind, const char *format, ...) LIKE_PRINTF(2);

/* A line with the first octets of a frame, the way it goes, and the wire. */
void note_frame(const char *way, int wire, const uint8_t *octets, size_t length);

/* How many faults there are; their kinds, at the end of a line; and the log: up to the first fault, or the last `lines`. */
unsigned faults(void);
void faults_print(void);
void faults_show_log(unsigned lines);

#endif
