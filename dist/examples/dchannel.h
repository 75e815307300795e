/*
 * dchannel.h: what misdn.c and dahdi.c do alike. A linecard at a D-channel whose layer 1 is a driver of the system's, which tells
 * when it is there. The card is one of four: the network or a terminal of a basic access, or the network or the user's side of a
 * primary rate access, whose TEI is 0. As the network of a basic access it assigns TEIs. As a user it establishes its link; as a
 * terminal it asks for its TEI first. If layer 1 is lost, its links are given up; when it is back, those that were up are
 * established anew. Layer 3 answers calls (q931.h); a message of another protocol goes back as it is.
 */
#ifndef DCHANNEL_H
#define DCHANNEL_H

#include "linecard.h"

typedef struct {
    linecard card;        /* with the program's name; dchannel_reads gives it the rest */
    const char *device;   /* the first word */
    bool is_user;         /* and not the network */
    bool is_primary;      /* primary rate, and not basic access */
    bool is_up;           /* layer 1 is there */
    FILE *capture;        /* or NULL */
    bool was_up[127];     /* by TEI: its link was up, or was to come up, as layer 1 was lost */
} dchannel;

/* Reads the words [--trace] DEVICE nt|te|nt-e1|te-e1 [RECORD [CAPTURE]], and opens the files. True: it did, and the program goes
 * on. Otherwise the program ends with this status: help, usage or a fault was told. */
bool dchannel_reads(dchannel *own, int words, char **word, const char *help, int *status);

/* Starts the card. From then on signals to end the program (SIGINT, SIGTERM) end its waits: dchannel_is_over says so. */
bool dchannel_begin(dchannel *own);
bool dchannel_is_over(void);

/* Ends the card, and closes the files; whether they were written. */
bool dchannel_end(dchannel *own);

/* Layer 1 is there, or was lost. Where it was so already, nothing happens. */
bool dchannel_up(dchannel *own);
bool dchannel_down(dchannel *own);

/* A frame came, without its check. */
bool dchannel_frame(dchannel *own, const uint8_t *frame, size_t length);

/* The driver told a fault in place of a frame, as lapd_frame_failed has it. */
bool dchannel_failed(dchannel *own, uint8_t cause);

/* The next frame to send, for which the driver has room; *length is 0 if none waits, or layer 1 isn't there. */
bool dchannel_next(dchannel *own, uint8_t frame[LAPD_MOST_FRAME], size_t *length);

#endif
