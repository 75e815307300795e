/*
 * lapd.h: a line card that ends ISDN D-channels (ITU-T Q.921, modulo 128), for C99 and C++. A program is a loop around one, which
 * reads the time once, after it has waited (docs/EMBEDDING.md has it whole):
 *
 *     for (;;) {
 *         for (uint32_t line = 0; lapd_next_waiting(&card, line, &line) == LAPD_OK;)
 *             ... if the controller of this line has room: lapd_next_frame, its report, and the frame; else line++ ...
 *         uint64_t until = UINT64_MAX;              stays so if no timer runs
 *         (void)!lapd_next_moment(&card, &until);
 *         ... wait (poll): for a frame, for room in a controller, for somebody who asks, and until the moment `until` at most ...
 *         uint64_t now = ... milliseconds of a clock that is never set back ...
 *         while ((status = lapd_fall_due(&card, now, &report)) == LAPD_OK)
 *             ... what the report tells, of report.line ...
 *         if (status != LAPD_NO_TIMER)
 *             ... a fault: with LAPD_WRONG_TIME the clock was set back, and no timer falls due ...
 *         ... lapd_frame or lapd_request, for what came, and what its report tells ...
 *     }
 *
 * All that a card does it does at the moment that lapd_fall_due was told last. Without that call after the wait, timers begin in
 * the past and expire too soon: a check, for example, can take a good TEI off. No status tells that. Calls that take the moment
 * with what came cannot forget it: lapd_frame_at, lapd_request_at, lapd_next_frame_at and lapd_exchange_at.
 *
 * A card takes what comes from its lines and answers with notes for layer 3, orders for timers, and what to send. It
 * is the network's side of its lines or, where `side` of its configuration says so, the user's: a private exchange's
 * end of a trunk, or a terminal, whose TEIs the network assigns. It is one of two kinds, as its start says. If a driver
 * gives and takes whole frames, it is a card of frames: lapd_card_start_frames. Drivers do so over every controller that
 * has flags, stuffed 0s and checks in hardware. If a driver gives and takes the octets of the bit stream, it is a card of
 * octets: lapd_card_start.
 *
 * A card has no callbacks, starts no thread, prints nothing, sets no errno, and takes memory in its start alone, as a
 * clock does; a restore is a start. The library comes in three ways, with this header for each:
 *
 *  - as assembler text, lapd.S, for x86-64 and 64-bit ARM with ELF, as Linux has it: cc program.c lapd.S lapd_malloc.c. This
 *    is the proved code, as the toolchain compiles it. Proofs end with the module of the toolchain's compiler: that LLVM makes
 *    these instructions of it rightly is only tested.
 *  - as one file in C99, lapd.c, for every processor of 32 or 64 bits: cc program.c lapd.c. It is made of the same module in
 *    more steps, each of which is only tested.
 *  - built by the toolchain, for Linux on x86-64 and 64-bit ARM, with the instructions of lapd.S. Link as pkg-config says of
 *    lapd, for the archives, or of lapd-shared (-llapd); or in CMake with lapd::lapd of find_package(lapd).
 *
 * A program without malloc has one region of memory (-DLAPD_HEAP_OCTETS=N for lapd.c or lapd_malloc.c), or functions of its
 * own (-DLAPD_OWN_MEMORY), which lapd_memory.h declares.
 *
 * A call that answers a status answers LAPD_WRONG_POINTER to a null pointer: by lapd.c always, and with lapd.S or a library of the
 * toolchain's if the program is compiled with -DLAPD_CHECKED, by lapd_checked.h. So compile a program that is not finished yet; in
 * C++ all its files or none, as an inline function has one definition. A pointer to octets may be null there if its length is 0.
 * Calls that answer no status, as lapd_tells, lapd_note_text and lapd_card_octets, look at no pointer.
 *
 * If a card that was freed is used through a copy, nothing tells it for sure. By lapd.c, an access outside of a card ends the program
 * with abort(); compiled with -DLAPD_CHECKED, lapd.c says why before, on standard error.
 *
 * What the caller promises, and no call can test:
 *
 *  - Each pointer is valid for what it points to. If null pointers are not answered, as above, none is null, even with a
 *    length of 0.
 *  - A length is the true number of octets to which its pointer points.
 *  - What two arguments of a call point to does not overlap, and neither overlaps what a card or a clock holds: the
 *    proofs take each as a place of its own. If it could happen by mistake, the call says what to do.
 *  - A card or a clock is used by one call at a time, even if an interrupt comes: a second call would meet it half
 *    changed, and nothing tells of that. Other cards and clocks may be used meanwhile. If starts and frees run at
 *    the same time, the functions of memory must allow it (malloc's do, heap.c's do not).
 *  - It begins as LAPD_CARD_NONE or LAPD_CLOCK_NONE, no copy of it is used, and its fields are left alone.
 *
 * No card and no clock is const, although some calls only ask. An export of the toolchain's cannot read through a const
 * pointer what owns memory, and nothing is proved of two questions at once.
 *
 * Everything else is tested. Each function says by its status what was wrong, and then nothing has changed: neither
 * the card or clock, nor what the other pointers point to. There are four exceptions: LAPD_NO_PLACE of
 * lapd_clock_apply_report; a link waits for room after LAPD_REFUSED_QUEUE_FULL of lapd_data; it is the moment of
 * lapd_fall_due after its LAPD_NO_TIMER; and *is_done of lapd_frame_at and lapd_request_at is written. A loop in these comments
 * ends at the first status that is not LAPD_OK: look at which it is. If several things are wrong, the first is told: that a pointer
 * is null, that there is no card or clock, that the card is of the other kind, the line, the other arguments in their order. A
 * refusal of a request is told last.
 */
#ifndef LAPD_H
#define LAPD_H

#include <stdbool.h>
#include <stddef.h>
#include <stdint.h>

/* What a call answers. One that is not looked at is warned of, in C++17 and C23 by their own attribute and before them by that of
 * GCC and Clang. `(void)!` before the call says that it is meant so: in C99, GCC warns of `(void)` alone, too. */
#ifndef LAPD_NODISCARD
#if defined(__cplusplus) && __cplusplus >= 201703L
#define LAPD_NODISCARD [[nodiscard]]
#elif defined(__STDC_VERSION__) && __STDC_VERSION__ > 201710L && defined(__has_c_attribute)
#define LAPD_NODISCARD [[nodiscard]]
#elif defined(__GNUC__)
#define LAPD_NODISCARD __attribute__((warn_unused_result))
#else
#define LAPD_NODISCARD
#endif
#endif
#define LAPD_STATUS LAPD_NODISCARD uint32_t

/* Functions that this header defines. The library has them as symbols as well, for languages that read no header of C. In C++
 * each is one function for the whole program, as those of lapd.hpp that call them. */
#ifndef LAPD_INLINE
#ifdef __cplusplus
#define LAPD_INLINE inline
#else
#define LAPD_INLINE static inline
#endif
#endif
#define LAPD_INLINE_STATUS LAPD_NODISCARD LAPD_INLINE uint32_t

/* What C and C++ spell in two ways. */
#if defined(__cplusplus) && __cplusplus >= 201103L
#define LAPD_NULL nullptr
#else
#define LAPD_NULL NULL
#endif
#ifdef __cplusplus
#define LAPD_ADDRESS(at) reinterpret_cast<uintptr_t>(at)
#else
#define LAPD_ADDRESS(at) ((uintptr_t)(at))
#endif

#ifdef __cplusplus
#ifdef __GNUC__ /* a call that is called like its struct hides the struct's constructor, which -Wshadow would tell */
#pragma GCC diagnostic push
#pragma GCC diagnostic ignored "-Wshadow"
#endif
extern "C" {
#endif

/* ---- The version ------------------------------------------------------------------------------------------------ */

/*
 * The version of this header, 1.0: the major number times 1,000, and the minor one. `lapdsim --version` and lapd.pc say
 * the same. While the major number stays, what compiled goes on compiling, and a program that was compiled with an
 * earlier header runs with a later shared library:
 *
 *  - No function goes, and none has other parameters. No number changes, except that LAPD_COUNTERS grows, and no meaning.
 *  - Each struct keeps its size, and each field its place and type. A new field takes the first of the struct's reserved
 *    places, and a new counter the first of those of its counters.
 *  - What is new stays off until somebody asks for it: by a new function, or by a new field that is not 0. So an earlier
 *    program meets no new note, cause or timer. A status that tells an old fault more exactly is the only exception.
 *
 * What a caller hands in (lapd_config, lapd_lengths) has reserved places that must be 0; otherwise the call answers
 * LAPD_BAD_RESERVED. So begin with an initialiser of this header, with names of fields, or
 * with zeros: a list of values without names is warned of by a later header. What the library writes (lapd_report with its notes,
 * lapd_link, lapd_due, lapd_head, and the structs of rooms and counters) has reserved places, too. Each call that writes
 * the struct sets them, to 0 in this version. Do not read them: a later library may write a number there. lapd_card, lapd_clock,
 * lapd_timer and lapd_order have none, and stay as they are.
 *
 * All else needs a new major number, and its shared library has another name (soname). No version was released yet: what
 * comes before that is all 1.0.
 */
#define LAPD_VERSION 1000

/* The version of the library that is linked, in the same way; it may be later than the header's. */
uint32_t lapd_version(void);

/* ---- Statuses: what a function answers -------------------------------------------------------------------------- */

enum {
    LAPD_OK = 0, /* the call did what it says */

    /* A request was refused: the first of these that holds, and LAPD_REFUSED_WRONG_SIDE before all. Nothing has changed. */
    LAPD_REFUSED_BAD_TEI = 1,       /* the TEI is over 126 (for disown, and for unit data on the network's side, over 127) */
    LAPD_REFUSED_NO_LINK = 2,       /* the TEI is not on the line (not for assign, disown, ask, nor unit data to 127) */
    LAPD_REFUSED_WRONG_STATE = 3,   /* the state of the link does not serve the request */
    LAPD_REFUSED_TOO_LONG = 4,      /* the contents are longer than n201 */
    LAPD_REFUSED_QUEUE_FULL = 5,    /* the link's queue is full, or the line's queue of unit data */
    LAPD_REFUSED_POOL_FULL = 6,     /* as many contents wait on the card as it has slots */
    LAPD_REFUSED_TEI_TAKEN = 7,     /* the TEI is on the line already; or all are to be disowned, and one is */
    LAPD_REFUSED_TABLE_FULL = 8,    /* the line has as many TEIs as it may have */
    LAPD_REFUSED_CHECK_RUNNING = 9, /* an identity check is running on the line; of a terminal, it asks or verifies */
    LAPD_REFUSED_CONTROL_FULL = 10, /* no room for one more message of TEI management; never at a terminal */
    LAPD_REFUSED_WRONG_SIDE = 29,   /* the card's side does not ask so. The network's side alone checks and disowns, a
                                       terminal alone asks and verifies, and both remove: LAPD_USER does none of these */

    /* A wrong call. Nothing has changed. */
    LAPD_NO_CARD = 11,       /* no card is there: it was not started, or was freed */
    LAPD_NO_CLOCK = 12,      /* no clock is there */
    LAPD_SECOND_START = 13,  /* a card or a clock is there already */
    LAPD_WRONG_LINE = 14,    /* the card, or the clock, has no such line */
    LAPD_WRONG_SERVICE = 15, /* neither LAPD_CALL nor LAPD_PACKET */
    LAPD_WRONG_TEI = 16,     /* a TEI over 126 */
    LAPD_WRONG_TIMER = 17,   /* none of LAPD_T200, LAPD_T203, LAPD_T201 and LAPD_T202 */
    LAPD_WRONG_REQUEST = 18, /* none of the requests */
    LAPD_WRONG_LENGTH = 19,  /* contents of a request that has none; an exchange of two lengths, or beyond them; or too
                                little room for a frame or an image */
    LAPD_WRONG_ORDER = 20,   /* an order is none, or a report's number of orders is over 4 */
    LAPD_WRONG_TIME = 21,    /* a moment after LAPD_LATEST, or of lapd_fall_due before its last one or from 2^63 on; or a
                                timer's length out of range */
    LAPD_WRONG_POINTER = 30, /* a pointer is null: of lapd.c, and where LAPD_CHECKED is defined */

    /* What else can be. */
    LAPD_NO_MEMORY = 22, /* a start or a restore was refused memory; what it had taken is given back */
    LAPD_NO_TIMER = 23,  /* no timer is due, or none runs */
    LAPD_NO_PLACE = 24,  /* no place for one more timer of the line; orders of one card of the clock's configuration always
                            find one */
    LAPD_NO_MORE_LINKS = 25, /* the line has no link from that place on */

    /* Of cards of frames. Nothing has changed. */
    LAPD_WRONG_CARD = 26,  /* a call for octets on a card of frames, or one for frames on a card of octets; one of a card's
                              own timers on a card without, or lapd_expire on one with them */
    LAPD_WRONG_CAUSE = 27, /* none of LAPD_ABORT, LAPD_RAGGED, LAPD_SHORT and LAPD_FCS */
    LAPD_NO_FRAME = 28,    /* no frame of the line waits to be sent */

    /* A field of the configuration is out of range: the first, in their order; after sapi come the side, the reading, and
     * the reserved places. */
    LAPD_BAD_LINES = 33,
    LAPD_BAD_TERMINALS = 34,
    LAPD_BAD_K = 35,
    LAPD_BAD_K16 = 36,
    LAPD_BAD_QUEUE = 37, /* also if k or k16 is in range, and greater than it */
    LAPD_BAD_UNIT_QUEUE = 38,
    LAPD_BAD_CONTROL = 39,
    LAPD_BAD_SLOTS = 40,
    LAPD_BAD_N201 = 41,
    LAPD_BAD_N200 = 42,
    LAPD_BAD_SIDE = 43, /* of lapd_frame_read and lapd_frame_text, too */
    LAPD_BAD_SAPI = 44,
    LAPD_BAD_READING = 45,
    LAPD_BAD_RESERVED = 47, /* a reserved place of a configuration, or of lengths, is not 0: the struct was not zeroed, or the
                               program wants what a later version has */

    /* Of a restore. No card and no clock is there then. */
    LAPD_BAD_IMAGE = 46, /* no image, or one of another kind or version; damaged so that its form shows it; or of a state
                           that docs/FORMAT.md excludes */

    /* Of lapd_frame_read: why octets are no frame, the first that holds. */
    LAPD_FRAME_SHORT = 48,     /* fewer than 3, or 3 where the control field has two octets (clause 2.9) */
    LAPD_FRAME_EXTENSION = 49, /* the address is not one of two octets (clauses 2.9 and 3.3.1) */
    LAPD_FRAME_UNDEFINED = 50, /* no control field of table 5, or a command's in a response, or a response's in a command
                                  (clause 3.6.1) */
    LAPD_FRAME_SIZE = 51       /* more or fewer octets than frames of this kind have (clauses 3.6.2 to 3.6.12) */
};

/* ---- The configuration of a card -------------------------------------------------------------------------------- */

/* How large a card is, and the limits of its lines and links. */
typedef struct lapd_config {
    uint16_t lines;      /* lines: 1 to 64 */
    uint16_t terminals;  /* TEIs on each line at most: 1 to 8 */
    uint16_t k;          /* the window of call control links: 1 to 127 (clause 5.9.5) */
    uint16_t k16;        /* the window of links of the second service: 1 to 127 */
    uint16_t queue;      /* contents that wait on each link, sent or unsent: the greater of k and k16, to 127 */
    uint16_t unit_queue; /* unit data that wait on each line: 1 to 16 */
    uint16_t control;    /* control frames that wait on each link: 2 to 16 */
    uint16_t slots;      /* contents that wait on the whole card: 1 to 8192 */
    uint16_t n201;       /* octets of an information field at most: 8 to 260 (clause 5.9.3) */
    uint16_t n200;       /* how often a command is repeated: 0 to 10 (clause 5.9.2) */
    uint16_t side;       /* which side of its lines the card is: LAPD_NETWORK, LAPD_USER or LAPD_TERMINAL */
    uint16_t seed;       /* of a terminal: its first reference number, 0 to 65,535, from a source of random numbers. By these
                            numbers alone the network tells terminals apart that ask. Each line begins with it, so no two
                            lines of a card may share a bus. Of the other sides it is not read */
    uint16_t sapi;       /* the SAPI of the second service, LAPD_PACKET: 1 to 62; 0 means 16 (clause 3.3.3) */
    uint16_t reading;    /* which rows hold where readers of the standard differ: LAPD_PROFILE or LAPD_ANNEX_B */
    uint16_t reserved[18]; /* for fields of a later version: 0 */
} lapd_config;

enum {
    LAPD_NETWORK = 0, /* the exchange */
    LAPD_USER = 1,    /* a private exchange (PBX), or a terminal whose TEI the network does not assign */
    LAPD_TERMINAL = 2 /* a terminal, whose TEIs the network assigns, checks and removes (clause 5.3) */
};

enum {
    LAPD_PROFILE = 0, /* this project's choice of each row, for two ends that are both this library's */
    LAPD_ANNEX_B = 1  /* the rows as others have them, after the diagrams of annex B: for equipment of other makers, and for a
                         conformance laboratory */
};

/*
 * Initialisers of a configuration of one line, with the standard's windows, N201 and N200 (clauses 5.9.2, 5.9.3 and 5.9.5), and
 * with a slot for each place of each queue, so that no request is refused as LAPD_REFUSED_POOL_FULL. They are the network's, and
 * fit the other sides, too. Their reading is LAPD_ANNEX_B, as the other end mostly is another maker's. Basic access has 16
 * kbit/s, a bus with up to eight TEIs, and windows of 1 and 3; primary rate has 64 kbit/s, one TEI, and windows of 7.
 *
 *     lapd_config gateway = LAPD_BASIC_ACCESS;     lapd_config phone = LAPD_BASIC_ACCESS;
 *     gateway.lines = 4;                           phone.terminals = 1;          a TEI alone takes less memory
 *     gateway.slots *= gateway.lines;              phone.side = LAPD_TERMINAL;
 *                                                  phone.seed = ... a random number ...
 */
#define LAPD_BASIC_ACCESS { 1, 8, 1, 3, 8, 4, 4, 132, 260, 3, LAPD_NETWORK, 0, 0, LAPD_ANNEX_B, { 0 } }
#define LAPD_PRIMARY_RATE { 1, 1, 7, 7, 8, 4, 4, 20, 260, 3, LAPD_NETWORK, 0, 0, LAPD_ANNEX_B, { 0 } }

/* ---- What is told ----------------------------------------------------------------------------------------------- */

enum {
    LAPD_CALL = 0,   /* the service of SAPI 0: call control */
    LAPD_PACKET = 16 /* the second service, whatever its SAPI: packet mode with SAPI 16, if it has no other */
};

enum {
    LAPD_GROUP_TEI = 127,   /* the TEI of all terminals of a line, for unit data of the network's side, and for disown; and
                               that of a note of TEI management that names none */
    LAPD_MOST_NOTES = 4,    /* no event tells more notes */
    LAPD_MOST_ORDERS = 4,   /* nor gives more orders */
    LAPD_MOST_OCTETS = 260, /* no configuration allows longer contents */
    LAPD_MOST_FRAME = 264,  /* no frame to send has more octets: the greatest n201 and four */
    LAPD_MOST_LINES = 64,   /* no card has more lines */
    LAPD_MOST_TEXT = 592    /* no text of a frame of at most LAPD_MOST_FRAME octets has more, with the 0 at its end */
};

/* What a note says. Those of a link name its service and TEI. A SABME while the link is up (states 7 and 8) tells
 * error F; an establish indication comes with it only if something that was sent was not acknowledged. */
enum {
    LAPD_ESTABLISH_INDICATION = 1, /* the link is up without a request; contents not acknowledged are lost */
    LAPD_ESTABLISH_CONFIRM = 2,    /* the link is up, as was asked for */
    LAPD_RELEASE_INDICATION = 3,   /* the link is down without a request */
    LAPD_RELEASE_CONFIRM = 4,      /* the link is down, as was asked for */
    LAPD_DATA_INDICATION = 5,      /* the report's contents came in an I-frame, in order */
    LAPD_UNIT_INDICATION = 6,      /* the report's contents came in a UI frame; on the user's side also to the group */
    LAPD_ERROR_INDICATION = 7,     /* an error, for layer management; its letter is in the note */
    LAPD_ASSIGNED = 8,             /* TEI management gave the TEI to a terminal that asked for one; at a terminal, to it */
    LAPD_REMOVED = 9,              /* no terminal has the TEI any more: it left the line; at a terminal, the network removed
                                      it, or answered no verify of it */
    LAPD_DOUBLED = 10,             /* two terminals had the TEI: it left the line */
    LAPD_XID_INDICATION = 11,      /* an XID frame came; it is not answered */
    LAPD_DENIED = 12,              /* at a terminal: the network has no TEI for it now. It goes on asking (clause 5.3.2) */
    LAPD_UNASSIGNED = 13,          /* at a terminal: three requests brought no TEI. It has stopped asking (clause 5.3.2.1) */
    LAPD_REMOVE_ALL = 14           /* at a terminal: the network removes all its TEIs, and more than one is on the line. They
                                      are still there: take each off by lapd_remove (clause 5.3.4) */
};

/* A note for layer 3 or management. */
typedef struct lapd_note {
    uint8_t note;    /* LAPD_ESTABLISH_INDICATION to LAPD_REMOVE_ALL */
    uint8_t service; /* LAPD_CALL or LAPD_PACKET; LAPD_CALL for notes of TEI management, which are of both */
    uint8_t tei;     /* the TEI that it is about; LAPD_GROUP_TEI for denied, unassigned and remove-all */
    uint8_t error;   /* of LAPD_ERROR_INDICATION: the letter, 'A' to 'O' without 'M'; otherwise 0 */
    uint8_t reserved[4]; /* for a later version: 0 */
} lapd_note;

enum {
    LAPD_T200 = 1, /* an answer or an acknowledgement is awaited; 1,000 ms by default (clause 5.9.1) */
    LAPD_T203 = 2, /* the longest time without frames; 10,000 ms by default (clause 5.9.8) */
    LAPD_T201 = 3, /* responses to an identity check are awaited; 1,000 ms by default (clause 5.9.6) */
    LAPD_T202 = 4  /* at a terminal: an answer to a request or a verify is awaited; 2,000 ms by default (clause 5.9.7) */
};

/* A timer of a line; or none, as a report may have it: 0 in each field. */
typedef struct lapd_timer {
    uint8_t timer;   /* LAPD_T200, LAPD_T203, LAPD_T201 or LAPD_T202 */
    uint8_t service; /* of the link, for T200 and T203; told as 0 for T201 and T202, and not read then */
    uint8_t tei;     /* of the link, for T200 and T203: 0 to 126; told as 0 for T201 and T202, and not read then */
} lapd_timer;

enum {
    LAPD_START = 1, /* start the timer; if it runs, anew */
    LAPD_STOP = 2   /* stop the timer, which ran */
};

/* What is to be done with a timer. */
typedef struct lapd_order {
    uint8_t order; /* LAPD_START or LAPD_STOP */
    lapd_timer timer;
} lapd_order;

/* Why a frame, or what stood for one, was dropped: the first that holds. */
enum {
    LAPD_ABORT = 1,     /* seven contiguous 1s gave up what stood since the latest flag (clause 2.10) */
    LAPD_RAGGED = 2,    /* not what a sender makes of whole octets (clauses 2.6 and 2.9) */
    LAPD_SHORT = 3,     /* too short for a frame (clause 2.9) */
    LAPD_FCS = 4,       /* the frame check tells of an error (clause 2.7) */
    LAPD_EXTENSION = 5, /* the address is not one of two octets (clauses 2.9 and 3.3.1) */
    LAPD_SAPI = 6,      /* the SAPI is none of 0, that of the second service, and 63 */
    LAPD_TEI = 7,       /* the TEI is not on the line; for SAPI 63: is not 127 */
    LAPD_UNSERVED = 8   /* a good frame for a known address that is not served */
};

/*
 * What an event led to: notes, then why something was dropped, then orders. Each call that succeeds tells all of one
 * event: the numbers of notes and orders, cause, lost, begun, delivered, length, more, given_up, given_up_16 and given_up_tei are
 * always those of this event. Beyond these numbers, and beyond length, the arrays may hold what earlier events told. A refused call
 * writes no report: what an earlier call told, given_up too, still stands there.
 *
 * A link on which contents were refused as LAPD_REFUSED_QUEUE_FULL waits for room, and is told once when its queue has
 * some (`reopened`): by the first call of its line that writes a report and at whose end it has. It does not matter what
 * made the room: contents were acknowledged, or given up as the link was released, established anew or taken down. If more
 * than one that waits has room, a report tells one, the lowest TEI first, and call control before packet. The next reports
 * of the line tell the others, if they still have. A link whose TEI leaves the line waits no longer, and is not told.
 *
 * Contents that lapd_data granted wait until the other end acknowledges them, or are given up. A link gives them up as it is
 * released or deactivated, as its establishment fails, and as its TEI leaves the line. It also does as it is established anew
 * while some are outstanding: sent, not acknowledged, and not to be sent again. All that an event gives up is of one TEI,
 * `given_up_tei`. `given_up` and `given_up_16` say how many contents its two links give up. These are the
 * ones that were granted last before the event, sent or not; what was sent may have arrived all the same. So read a report
 * before the card's next call. A release has no note as it is granted, nor has, by annex B, an establish in
 * state 5: its own report tells what it gives up. Unit data is not counted: it is given up only as the line goes down. No
 * report counts what is lost by lapd_card_free, a restart or a standby that takes over.
 *
 * A report is written by the calls that it is handed to, and by these alone: no card keeps its address. It has no pointers, so
 * a copy tells the same, and stays as it is. While layer 3 reads a report and asks for something meanwhile, its requests take
 * another one. So nothing is copied:
 *
 *     lapd_report came, asked;
 *     if (lapd_frame(&card, line, frame, length, &came) == LAPD_OK)
 *         for (const lapd_note *note = came.notes; note < came.notes + came.note_count; note++)
 *             if (note->note == LAPD_DATA_INDICATION
 *                 && lapd_data(&card, line, note->service, note->tei, came.contents, came.length, &asked) == LAPD_OK)
 *                 ... the notes of `asked`, which are of the request
 *
 * Of a card that does not keep its own timers, the orders of `came` are carried out before the request, and those of `asked`
 * right after it.
 *
 * With the same report for both, what was told is gone after the first request: read all of it before, or only answer with
 * its contents, which lapd_data and lapd_unit copy first.
 */
typedef struct lapd_report {
    uint8_t note_count;  /* 0 to 4 */
    uint8_t order_count; /* 0 to 4 */
    uint8_t cause;       /* 0, or LAPD_ABORT to LAPD_UNSERVED */
    uint8_t lost;        /* so many frames to send found no room to wait, and are lost as if on the line */
    uint8_t begun;       /* of a pull: 1 if it began a frame that waited; 1 with the next frame; otherwise 0 */
    uint8_t delivered;   /* 1 if contents were delivered, of `length` octets; otherwise 0, and length is 0 */
    uint16_t length;     /* octets of contents, at most the card's n201 */
    lapd_note notes[LAPD_MOST_NOTES];
    lapd_order orders[LAPD_MOST_ORDERS];
    uint8_t contents[LAPD_MOST_OCTETS];
    uint8_t more;        /* of the next frame: 1 if another waits on its line, so that the next call gives one; otherwise 0 */
    lapd_timer expired;  /* of lapd_fall_due: the timer that expired; of every other call 0 in each field */
    uint8_t reopened;    /* 1 if a link that waited for room has some again; if it is 0, the next two tell nothing */
    uint8_t reopened_service; /* of that link: LAPD_CALL or LAPD_PACKET */
    uint8_t reopened_tei;     /* of that link: 0 to 126 */
    uint16_t line;            /* the line at which the event happened */
    uint8_t given_up;    /* the latest so many contents that lapd_data granted for call control are given up: 0 to 127 */
    uint8_t given_up_16; /* the same of the second service */
    uint8_t given_up_tei; /* the TEI of these links, 0 to 126; 255 if both numbers are 0 */
    uint8_t reserved[15]; /* for a later version: 0 */
} lapd_report;

/* ---- A card ----------------------------------------------------------------------------------------------------- */

/* A card, or none: `lapd_card card = LAPD_CARD_NONE;` (so does zeroed memory). */
typedef struct lapd_card {
    bool started;
    void *at;
} lapd_card;

#define LAPD_CARD_NONE { false, LAPD_NULL }

/* Starts a card of octets, on which no TEI is on any line. Takes memory, as only the starts of a card do.
 * LAPD_SECOND_START, the first bad field (LAPD_BAD_LINES to LAPD_BAD_READING, or LAPD_BAD_RESERVED) or LAPD_NO_MEMORY: there is
 * no other card than before. */
LAPD_STATUS lapd_card_start(lapd_card *card, const lapd_config *config);

/* Starts a card of frames in the same way. It takes less memory, as no line of it has room for a frame on its way. */
LAPD_STATUS lapd_card_start_frames(lapd_card *card, const lapd_config *config);

/* How long timers run, in milliseconds, 1 to 3,600,000 each, at each side: T200 and T203 of each link, T201 of each line, and
 * T202 of each line of a terminal (clauses 5.9.1, 5.9.8, 5.9.6 and 5.9.7). By default they are 1,000, 10,000, 1,000 and
 * 2,000. */
typedef struct lapd_lengths {
    uint32_t t200;
    uint32_t t203;
    uint32_t t201;
    uint32_t t202;
    uint32_t reserved[4]; /* for a later version: 0 */
} lapd_lengths;

/* An initialiser of lengths, with these defaults. On LAPD_BASIC_ACCESS T200 of 1,000 ms is enough for three links that send full
 * frames both ways at a time; for eight it is 2,568 (EMBEDDING.md, "Choosing T200"). With less, contents may be told twice, or
 * be acknowledged and lost. */
#define LAPD_DEFAULT_LENGTHS { 1000, 10000, 1000, 2000, { 0 } }

/*
 * Starts a card of octets that keeps its own timers: no clock is needed, and no order is to be carried out. It is at moment 0,
 * and its calls happen at the moment that lapd_fall_due was told last. So tell it the time first: a timer that another call
 * starts before runs from moment 0. Its reports have no orders, and lapd_expire answers LAPD_WRONG_CARD, as its expiries are its
 * own; all other calls are the same. LAPD_WRONG_TIME: a length is out of range. LAPD_BAD_RESERVED: a reserved place is not 0.
 */
LAPD_STATUS lapd_card_start_timed(lapd_card *card, const lapd_config *config, const lapd_lengths *lengths);

/*
 * Starts a card of frames that keeps its own timers in the same way: the loop at the top is around one.
 */
LAPD_STATUS lapd_card_start_frames_timed(lapd_card *card, const lapd_config *config, const lapd_lengths *lengths);

/* Ends a card of either kind and gives back all memory that its start took. LAPD_NO_CARD: nothing happens. */
LAPD_STATUS lapd_card_free(lapd_card *card);

/* ---- What happens at a card of octets. On a card of frames: LAPD_WRONG_CARD ------------------------------------- */

/* Takes an octet that came from a line, bit 1 (the low bit) first. Controllers of E1 and T1 mostly have the bit that came first
 * as bit 8: turn their octets by lapd_turned, here, at lapd_pull and at lapd_exchange. */
LAPD_STATUS lapd_octet(lapd_card *card, uint32_t line, uint8_t octet, lapd_report *report);

/* Gives the next octet of a line to send, bit 1 first: of a frame if one waits or has begun, otherwise of flags. */
LAPD_STATUS lapd_pull(lapd_card *card, uint32_t line, uint8_t *octet, lapd_report *report);

/*
 * Takes and gives octets in turn: step 2i takes in[i], step 2i+1 gives out[i]. Goes on from step *steps, up to and with
 * the first step that has something to tell (a note, an order, a cause, a frame lost, contents, a frame begun), or to
 * the end. *steps is then the next step. The report is that of this step, or tells nothing if no step had
 * anything to tell. At a card with its own timers it may stop at a step that has nothing but an order, and its report
 * tells nothing then: so go on as long as there are steps. For room of a link it does not stop: the report has it as it is
 * at the end of the call (lapd.c stops after 256 octets where a link has room again then). LAPD_WRONG_LENGTH: the two
 * lengths differ, or *steps is beyond twice the length. For a step that has nothing to tell no report is written. `in` and
 * `out` are two buffers: what is proved of the octets that are taken holds while none of them is written over. With one
 * buffer call lapd_octet and lapd_pull in turn.
 *
 *     for (size_t steps = 0; steps < 2 * n && lapd_exchange(&card, line, in, n, out, n, &steps, &report) == LAPD_OK;)
 *         ... what the report tells ...
 */
LAPD_STATUS lapd_exchange(lapd_card *card, uint32_t line, const uint8_t *in, size_t in_length, uint8_t *out,
                          size_t out_length, size_t *steps, lapd_report *report);

/* ---- What happens at a card of frames. On a card of octets: LAPD_WRONG_CARD ------------------------------------- */

/*
 * A frame came from a line: its octets from the address to the information, without the check, which was good. One with
 * too few octets, or with more than n201 and four, is answered as such octets between flags are: as LAPD_SHORT, or as
 * information that is too long (error O of a link). The octets lie outside of *report. Whoever gets two octets of check
 * with each frame, as some drivers give them, leaves them off.
 */
LAPD_STATUS lapd_frame(lapd_card *card, uint32_t line, const uint8_t *octets, size_t length, lapd_report *report);

/* The controller of a line told a fault in place of a frame: LAPD_ABORT, LAPD_RAGGED (no whole octets), LAPD_SHORT or
 * LAPD_FCS. The report has it as its cause; nothing else happens. LAPD_WRONG_CAUSE: it is none of these four. */
LAPD_STATUS lapd_frame_failed(lapd_card *card, uint32_t line, uint8_t cause, lapd_report *report);

/*
 * Gives the next frame of a line to send: writes it in front of `out`, from the address to the information, without a check,
 * and *length is how many octets it has. An I-frame counts as sent then, and its T200 runs; T200 of SABME, DISC or an
 * enquiry runs since that was queued. So call it as soon as the controller can take a frame, and not before: if none is
 * taken until N200 is used up, links are lost (errors G, H, I). LAPD_NO_FRAME: none waits, and nothing has changed.
 * LAPD_WRONG_LENGTH: `room` is less than n201 and four, whatever waits. After the frame nothing of `out` is written; `out`
 * lies outside of *report. A card that keeps its own timers has carried out the report's orders, and it has none; of
 * another, carry them out as those of each other call. If report->more is 0, the next call would answer LAPD_NO_FRAME,
 * unless something happens at the line before it.
 *
 *     uint8_t out[LAPD_MOST_FRAME];
 *     for (size_t length; lapd_next_frame(&card, line, out, sizeof out, &length, &report) == LAPD_OK;)
 *         ... the report's orders, if it has any, then out[0] to out[length - 1] to the controller ...
 */
LAPD_STATUS lapd_next_frame(lapd_card *card, uint32_t line, uint8_t *out, size_t room, size_t *length,
                            lapd_report *report);

/*
 * The first line on which a frame waits, from line `from` on: lapd_next_frame gives one there, and none on the lines that
 * are passed over. LAPD_NO_FRAME: none waits from there on, and *line is as it was. It costs the same for 64 lines as for
 * one. All frames for which controllers have room:
 *
 *     for (uint32_t line = 0; lapd_next_waiting(&card, line, &line) == LAPD_OK;)
 *         ... if the controller of this line has room for one: lapd_next_frame; else line++ ...
 */
LAPD_STATUS lapd_next_waiting(lapd_card *card, uint32_t from, uint32_t *line);

/* ---- What happens at a card of either kind ---------------------------------------------------------------------- */

/* A timer of a line expired. One that does not run has no effect, and nothing is told. The timer lies outside of
 * *report, which is written while it is read: a lapd_due's does; copy that of one of the report's own orders. */
LAPD_STATUS lapd_expire(lapd_card *card, uint32_t line, const lapd_timer *timer, lapd_report *report);

enum {
    LAPD_ESTABLISH = 1, /* establish the link (DL-ESTABLISH request, clause 4.1.1.1) */
    LAPD_RELEASE = 2,   /* release the link (DL-RELEASE request, clause 4.1.1.2) */
    LAPD_DATA = 3,      /* send contents on the link, acknowledged (DL-DATA request, clause 4.1.1.3) */
    LAPD_UNIT = 4,      /* send contents without acknowledgement (DL-UNIT DATA request, clause 4.1.1.4) */
    LAPD_ASSIGN = 5,    /* put the TEI on the line (MDL-ASSIGN request, clause 4.1.1.5) */
    LAPD_REMOVE = 6,    /* take the TEI from the line (MDL-REMOVE request, clause 4.1.1.6) */
    LAPD_CHECK = 7,     /* ask which terminals have the TEI (clause 5.3.3.2) */
    LAPD_BUSY = 8,      /* take no I-frames on the link for now (clause 5.6.6) */
    LAPD_READY = 9,     /* take I-frames again */
    LAPD_DEACTIVATE = 10, /* the line is down: give the link up (annex B, persistent deactivation) */
    LAPD_DOWN = 11,       /* the line is down: give up what waits on it and is of no link (annex B) */
    LAPD_DISOWN = 12,     /* a TEI that is not on the line, or 127 for all: its terminals give it up (clause 5.3.4) */
    LAPD_ASK_TEI = 13,    /* a terminal asks the network for a TEI (clause 5.3.2) */
    LAPD_VERIFY_TEI = 14  /* a terminal asks the network to check its TEI (clause 5.3.5) */
};

/* Asks for something at a line; the contents are copied. LAPD_REFUSED_BAD_TEI to LAPD_REFUSED_CONTROL_FULL, or
 * LAPD_REFUSED_WRONG_SIDE: it is refused. The service is LAPD_CALL or LAPD_PACKET in each, though those of TEI management
 * are about both, and LAPD_DOWN about the line. LAPD_DOWN and LAPD_ASK_TEI read no TEI either. The length is 0 except for
 * LAPD_DATA and LAPD_UNIT. The contents lie outside of *report; if they are those of the report itself, ask by lapd_data
 * or lapd_unit. */
LAPD_STATUS lapd_request(lapd_card *card, uint32_t line, uint8_t request, uint8_t service, uint8_t tei,
                         const uint8_t *contents, size_t length, lapd_report *report);

/* ---- What happens in time, at a card that keeps its own timers. At another: LAPD_WRONG_CARD ----------------------- */

/*
 * The time is now a moment, in milliseconds from any origin; and the timer that is due first, if one is, expires. The report
 * has it as `expired`, and tells what that led to, at its line: nothing if it led to a frame alone. However late the call is,
 * the timer expires at this moment, and what it starts runs from then on. So call it until it answers LAPD_NO_TIMER: then
 * nothing is due, and calls happen at this moment. At one moment: by line, then T200 before T203 before T201 or T202, by TEI,
 * and call control before packet.
 * LAPD_WRONG_TIME: a moment before the last one, or 2^63 and later, and nothing has changed. Nothing falls due until the last
 * moment has come again, so take a clock that is never set back, and look at the status that ends the loop. One moment that is
 * far too great stops all timers of the card for good: then free it, and start another.
 */
LAPD_STATUS lapd_fall_due(lapd_card *card, uint64_t now, lapd_report *report);

/* The moment at which the card is: the one that lapd_fall_due was told last, even if it answered LAPD_NO_TIMER; 0 before the first.
 * A card that was restored is at the moment at which it was saved. */
LAPD_STATUS lapd_now(lapd_card *card, uint64_t *moment);

/* When the timer falls due that falls due first: nothing falls due before, unless another call starts a timer. So ask once all
 * other calls of a turn are made. If lapd_fall_due has answered LAPD_NO_TIMER, it is later than now; while a timer that is due
 * is left, it has passed. LAPD_NO_TIMER: none runs. */
LAPD_STATUS lapd_next_moment(lapd_card *card, uint64_t *moment);

/* When the state of the link of a service with this TEI changed last: the moment, as lapd_fall_due was told it, of the call
 * after which it was another than before (4 to 8, as lapd_state tells it). It changes, too, as the TEI comes to the line. 0 if
 * that was before a moment was told. The call changes nothing. LAPD_REFUSED_NO_LINK: the TEI is not on the line. */
LAPD_STATUS lapd_changed_at(lapd_card *card, uint32_t line, uint8_t service, uint8_t tei, uint64_t *moment);

/* How long timers run that are started from now on. Those that run keep the lengths that they were started with.
 * LAPD_WRONG_TIME: a length is out of range. LAPD_BAD_RESERVED: a reserved place is not 0. Nothing has changed then. */
LAPD_STATUS lapd_card_set_lengths(lapd_card *card, const lapd_lengths *lengths);

/* ---- What a card says of itself --------------------------------------------------------------------------------- */

/* The state of the link of a service with this TEI, by its number in Q.921: 4 (TEI assigned), 5 (awaiting
 * establishment), 6 (awaiting release), 7 (multiple frame established), 8 (timer recovery); 0 where the TEI is not on
 * the line. */
LAPD_STATUS lapd_state(lapd_card *card, uint32_t line, uint8_t service, uint8_t tei, uint8_t *state);

/* A link of a line. */
typedef struct lapd_link {
    uint8_t service; /* LAPD_CALL or LAPD_PACKET */
    uint8_t tei;     /* 0 to 126 */
    uint8_t state;   /* as lapd_state tells it: 4 to 8 */
    uint8_t reserved[5]; /* for a later version: 0 */
} lapd_link;

/*
 * The links of a line one after the other, by TEI, call control before packet. *place says from where to look: 0 for
 * the first, and afterwards the place after the link that was told, as the call leaves it. LAPD_NO_MORE_LINKS: there
 * is none from there on.
 *
 *     uint8_t place = 0;
 *     for (lapd_link link; lapd_next_link(&card, line, &place, &link) == LAPD_OK;)
 *         ... link.service, link.tei, link.state ...
 */
LAPD_STATUS lapd_next_link(lapd_card *card, uint32_t line, uint8_t *place, lapd_link *link);

/* How much room a link has for contents. As the call has the same name, it is `struct lapd_room` also in C++. */
struct lapd_room {
    uint32_t pool; /* so many more find a slot of the card: 0 to its slots */
    uint8_t queue; /* so many more find a place in the link's queue: 0 to the card's `queue` */
    uint8_t va;    /* V(A), 0 to 127: the number of the oldest contents that are not acknowledged (clause 3.5.2.3) */
    uint8_t reserved[10]; /* for a later version: 0 */
};

/*
 * The room of the link of a service with this TEI. In states 7 and 8, contents that are not too long are refused as
 * LAPD_REFUSED_QUEUE_FULL exactly if `queue` is 0, and otherwise as LAPD_REFUSED_POOL_FULL exactly if `pool` is 0.
 * LAPD_REFUSED_NO_LINK: the TEI is not on the line.
 *
 * Each contents that the terminal acknowledges raises V(A) by one, modulo 128, and `queue` and `pool` too. So where
 * the link keeps n contents (the card's `queue` less the room's), all of them are acknowledged once V(A) has risen by n;
 * unless the link is established anew, which sets V(A) to 0.
 */
LAPD_STATUS lapd_room(lapd_card *card, uint32_t line, uint8_t service, uint8_t tei, struct lapd_room *room);

/* How a frame begins, and how long it is. */
typedef struct lapd_head {
    uint16_t length;   /* octets from its address to its information, without its check: 3 or more, or 0 for no frame */
    uint8_t octets[4]; /* its address and its control field; if that has one octet, the first of the information, or 0 */
    uint8_t reserved[2]; /* for a later version: 0 */
} lapd_head;

/* Which frame a pull of the line began last, as after one whose report says `begun`: it stays until a pull begins
 * another. The length is 0 if no pull has begun one yet. LAPD_WRONG_CARD on a card of frames, which has no pulls. */
LAPD_STATUS lapd_begun(lapd_card *card, uint32_t line, lapd_head *head);

/* Which frame was heard last at the line, even if it was dropped afterwards, as for a TEI that is not on the line. It stays
 * until the next is. Of one that is too long to be kept the length is n201 and five, whatever it was. The length is 0 if
 * none was heard yet. How many were heard so far, lapd_counters tells: the sum of LAPD_HEARD_I to LAPD_HEARD_UNDEFINED, and
 * LAPD_HEARD_OVERLONG. LAPD_WRONG_CARD on a card of frames, whose caller has each frame that it hands over. */
LAPD_STATUS lapd_heard(lapd_card *card, uint32_t line, lapd_head *head);

/* The frame of lapd_begun, whole, also while its octets are still pulled: written in front of `out`, from the address to the
 * information, without its check, and *length is how many octets it has. LAPD_NO_FRAME: no pull has begun one yet.
 * LAPD_WRONG_LENGTH: `room` is less than it has; LAPD_MOST_FRAME is enough. After the frame nothing of `out` is written. */
LAPD_STATUS lapd_begun_frame(lapd_card *card, uint32_t line, uint8_t *out, size_t room, size_t *length);

/* In the same way the frame that the latest octet of the line has ended, even if it was dropped for its address; of one that is
 * too long to be kept, its first four octets. Ask before the line's next octet: take octets one by one, by lapd_octet, or by
 * lapd_exchange of one each way. LAPD_NO_FRAME: the latest octet has ended none. */
LAPD_STATUS lapd_heard_frame(lapd_card *card, uint32_t line, uint8_t *out, size_t room, size_t *length);

/*
 * What is counted of a line: the place of each number in lapd_counters.
 */
enum {
    /* frames heard, by their third octet, the first of their control field, well formed or not, and whether or not for a
     * TEI of the line. What is dropped before its check is found good, and what is too long to be kept, is none of them.
     * SABME heard are isdnLapdPeerSabme of RFC 2127, and FRMR heard isdnLapdRecvdFrmr */
    LAPD_HEARD_I = 0, LAPD_HEARD_RR = 1, LAPD_HEARD_RNR = 2, LAPD_HEARD_REJ = 3, LAPD_HEARD_SABME = 4,
    LAPD_HEARD_DISC = 5, LAPD_HEARD_UI = 6, LAPD_HEARD_UA = 7, LAPD_HEARD_DM = 8, LAPD_HEARD_FRMR = 9,
    LAPD_HEARD_XID = 10, LAPD_HEARD_UNDEFINED = 11,
    /* frames begun: a pull has begun to send them, or lapd_next_frame gave them */
    LAPD_BEGUN_I = 12, LAPD_BEGUN_RR = 13, LAPD_BEGUN_RNR = 14, LAPD_BEGUN_REJ = 15, LAPD_BEGUN_SABME = 16,
    LAPD_BEGUN_DISC = 17, LAPD_BEGUN_UI = 18, LAPD_BEGUN_UA = 19, LAPD_BEGUN_DM = 20, LAPD_BEGUN_FRMR = 21,
    LAPD_BEGUN_XID = 22, LAPD_BEGUN_UNDEFINED = 23,
    /* octets of these frames, from the address to the information */
    LAPD_HEARD_OCTETS = 24, LAPD_BEGUN_OCTETS = 25,
    /* of these frames, the commands I, RR, RNR and REJ with P=1, which ask for an answer: by the C/R bit of the first octet, the
     * third octet, and the lowest bit of the fourth, well formed or not */
    LAPD_HEARD_POLLS = 26, LAPD_BEGUN_POLLS = 27,
    /* good frames that are too long to be kept, also those that are then dropped, as for a TEI that is not on the line */
    LAPD_HEARD_OVERLONG = 28,
    /* what was dropped, by its cause */
    LAPD_DROPPED_ABORT = 29, LAPD_DROPPED_RAGGED = 30, LAPD_DROPPED_SHORT = 31, LAPD_DROPPED_FCS = 32,
    LAPD_DROPPED_EXTENSION = 33, LAPD_DROPPED_SAPI = 34, LAPD_DROPPED_TEI = 35, LAPD_DROPPED_UNSERVED = 36,
    /* MDL-ERROR indications, by their code */
    LAPD_ERRORS_A = 37, LAPD_ERRORS_B = 38, LAPD_ERRORS_C = 39, LAPD_ERRORS_D = 40, LAPD_ERRORS_E = 41,
    LAPD_ERRORS_F = 42, LAPD_ERRORS_G = 43, LAPD_ERRORS_H = 44, LAPD_ERRORS_I = 45, LAPD_ERRORS_J = 46,
    LAPD_ERRORS_K = 47, LAPD_ERRORS_L = 48, LAPD_ERRORS_N = 49, LAPD_ERRORS_O = 50,
    /* other notes */
    LAPD_TOLD_ESTABLISH_INDICATION = 51, LAPD_TOLD_ESTABLISH_CONFIRM = 52, LAPD_TOLD_RELEASE_INDICATION = 53,
    LAPD_TOLD_RELEASE_CONFIRM = 54, LAPD_TOLD_DATA = 55, LAPD_TOLD_UNIT = 56, LAPD_TOLD_XID = 57,
    LAPD_TOLD_ASSIGNED = 58, LAPD_TOLD_REMOVED = 59, LAPD_TOLD_DOUBLED = 60, LAPD_TOLD_DENIED = 61,
    LAPD_TOLD_UNASSIGNED = 62, LAPD_TOLD_REMOVE_ALL = 63,
    /* control frames and messages that found no room to wait */
    LAPD_LOST = 64,
    /* messages of TEI management heard and begun (clause 5.3.6, table 8), by their type. They are the UI frames above with
     * SAPI 63 and FF as the second octet (TEI 127 and its extension bit) whose information begins with the entity identifier 15,
     * well formed or not, served or not. The network's side begins those that assign, deny, check
     * and remove, and hears the others; a terminal begins the others */
    LAPD_HEARD_REQUEST = 65, LAPD_HEARD_ASSIGNED = 66, LAPD_HEARD_DENIED = 67, LAPD_HEARD_CHECK_REQUEST = 68,
    LAPD_HEARD_CHECK_RESPONSE = 69, LAPD_HEARD_REMOVE = 70, LAPD_HEARD_VERIFY = 71,
    LAPD_BEGUN_REQUEST = 72, LAPD_BEGUN_ASSIGNED = 73, LAPD_BEGUN_DENIED = 74, LAPD_BEGUN_CHECK_REQUEST = 75,
    LAPD_BEGUN_CHECK_RESPONSE = 76, LAPD_BEGUN_REMOVE = 77, LAPD_BEGUN_VERIFY = 78,
    LAPD_COUNTERS = 79
};

/* As the call has the same name, it is `struct lapd_counters` also in C++. While the major version stays, these numbers keep
 * their places. What a later version counts takes the first reserved place. */
struct lapd_counters {
    uint64_t values[LAPD_COUNTERS]; /* each stays at its greatest value once it is there */
    uint64_t reserved[17];          /* for what a later version counts: 0 */
};

/* What was counted of a line since the card began, on a card of either kind. A request that is refused is not counted. It
 * changes nothing. */
LAPD_STATUS lapd_counters(lapd_card *card, uint32_t line, struct lapd_counters *counters);

/* What is counted of a link. Each number stays at 65535 once it is there. All begin anew as the TEI comes to the line, and as
 * lapd_deactivate or lapd_line_down gives the link up. As the call has the same name, it is `struct lapd_link_counters` also in
 * C++. What a later version counts takes the first reserved place. */
struct lapd_link_counters {
    uint16_t sent_again;       /* I-frames begun whose number began before, in the same establishment (5.6.4, 5.6.7) */
    uint16_t t200_expired;     /* how often T200 expired while it ran (clause 5.9.1) */
    uint16_t rejects_sent;     /* REJ frames begun (clause 5.8.1) */
    uint16_t rejects_received; /* REJ frames heard in states 7 and 8, well formed, whatever their N(R) (clause 5.6.4) */
    uint16_t established;      /* how often it was established, by either side, also anew (clauses 5.5.1 and 5.7) */
    uint16_t reserved[11];     /* for what a later version counts: 0 */
};

/* What was counted of the link of a service with this TEI, on a card of either kind. It changes nothing.
 * LAPD_REFUSED_NO_LINK: the TEI is not on the line. */
LAPD_STATUS lapd_link_counters(lapd_card *card, uint32_t line, uint8_t service, uint8_t tei,
                               struct lapd_link_counters *counters);

/* How many octets the card stores now, of frames, messages and contents; at most lapd_limit's. A card of frames stores
 * none of frames that come and go. */
LAPD_STATUS lapd_stored(lapd_card *card, uint32_t *octets);

/* How many octets a card of octets of this configuration stores at most, and so also one of frames, which stores less. */
LAPD_STATUS lapd_limit(lapd_card *card, uint32_t *octets);

/* How many lines the card has. */
LAPD_STATUS lapd_lines(lapd_card *card, uint32_t *lines);

/* ---- A card that is saved, and restored ------------------------------------------------------------------------- */

/*
 * An image is a card as it is at a moment, in octets that are the same on every processor and by each way of this library
 * (docs/FORMAT.md has them). It has the kind, the configuration, and of each line all that is under way there: TEIs, links,
 * contents, counters, and which links wait for room. Of a card that keeps its own timers it has also their lengths, its moment, and
 * when each timer falls due.
 *
 *     uint8_t *image = malloc(lapd_image_octets(&config));
 *     size_t length;
 *     if (lapd_card_save(&card, image, lapd_image_octets(&config), &length) == LAPD_OK)
 *         ... image[0] to image[length - 1], to a file or to another process; and there ...
 *     lapd_card other = LAPD_CARD_NONE;
 *     if (lapd_card_restore(&other, image, length) == LAPD_OK)
 *         ... a card that goes on ...
 *
 * A restored card goes on as the saved one would: to the same calls it answers the same. But a line of octets begins anew. A frame
 * that was half received or half sent is lost, as any may be on a line, and lapd_begun and lapd_heard have none yet.
 *
 * It is at the moment at which it was saved, and no timer has run meanwhile. So a process whose clock has another origin goes on
 * from that moment: it adds to its own time what lies between them. Save as lapd_fall_due has answered LAPD_NO_TIMER.
 */

/* So many octets the image of a card of this configuration has at most, of each kind, and so also that of a clock. 0: a field is
 * out of range, or a reserved place is not 0. */
uint32_t lapd_image_octets(const lapd_config *config);

/* Writes the image of a card in front of `image`, and *length is how many octets it has. Octets after these do not change, nor does
 * the card.
 * LAPD_WRONG_LENGTH: `room` is less than an image of this card may have, and nothing is written. (A card of lapd.c has room for its
 * image in its own memory, unless that is compiled with -DLAPD_NO_IMAGES: then these calls are not there.) */
LAPD_STATUS lapd_card_save(lapd_card *card, uint8_t *image, size_t room, size_t *length);

/* Starts the card of an image, of the kind and the configuration that this has. Takes memory as a start does.
 * LAPD_SECOND_START, LAPD_NO_MEMORY or LAPD_BAD_IMAGE: there is no other card than before. Each octet is looked at before it is
 * believed, so an image may come from anywhere. But it has no check: one that was changed, and is an image still, is taken. */
LAPD_STATUS lapd_card_restore(lapd_card *card, const uint8_t *image, size_t length);

/* ---- A frame in fields, and in words ------------------------------------------------------------------------------ */

/* Frames, by their kinds in table 5 of Q.921. */
enum {
    LAPD_KIND_I = 1,
    LAPD_KIND_RR = 2,
    LAPD_KIND_RNR = 3,
    LAPD_KIND_REJ = 4,
    LAPD_KIND_SABME = 5,
    LAPD_KIND_DISC = 6,
    LAPD_KIND_UI = 7,
    LAPD_KIND_UA = 8,
    LAPD_KIND_DM = 9,
    LAPD_KIND_FRMR = 10,
    LAPD_KIND_XID = 11
};

/* What a frame says. */
typedef struct lapd_fields {
    uint8_t kind;    /* LAPD_KIND_I to LAPD_KIND_XID */
    uint8_t command; /* 1 of a command, 0 of a response */
    uint8_t sapi;    /* 0 to 63 */
    uint8_t tei;     /* 0 to 127 */
    uint8_t bit;     /* 0 or 1: P of a command, F of a response */
    uint8_t ns;      /* N(S) of an I frame: 0 to 127; otherwise 0 */
    uint8_t nr;      /* N(R) of an I frame, RR, RNR or REJ: 0 to 127; otherwise 0 */
    uint8_t start;   /* at which octet its information begins: 3 or 4 */
    uint16_t info;   /* so many octets its information has */
    uint8_t reserved[6]; /* for a later version: 0 */
} lapd_fields;

/*
 * What octets say as a frame that a side sent (LAPD_NETWORK, LAPD_USER or, the same, LAPD_TERMINAL), without a check, by the
 * grammar by which a card reads: for logs, monitors and captures. A card asks more of a frame than that it is one: its address has
 * to be known and served, and its information at most n201 octets long.
 *
 * LAPD_FRAME_SHORT to LAPD_FRAME_SIZE: they are no frame. LAPD_WRONG_LENGTH: `length` is over 1,028. LAPD_BAD_SIDE: it is no side.
 * Nothing is written then. It is of no card, takes no memory, and may be called at any time; of lapd.c it takes 24 KB of
 * stack.
 */
LAPD_STATUS lapd_frame_read(const uint8_t *octets, size_t length, uint16_t side, lapd_fields *fields);

/*
 * What octets say, without a check, as a side sent them (LAPD_NETWORK, LAPD_USER or, the same, LAPD_TERMINAL), for a log:
 * in front of `text`, which ends with a 0, the first line that `lapdsim frame` prints of them. A message of TEI management stands
 * in words after its octets: its name, reference number (Ri) and action indicator (Ai). What is no frame has the line that tells
 * why.
 *
 *     sapi 0 tei 64 command i ns 1 nr 2 p 0 info 0801          an I-frame of the user's side
 *     sapi 0 tei 64 response ua f 1 info -                     UA of the network's side
 *     sapi 63 tei 127 command ui p 0 info 0F12340281 identity assigned, Ri 1234, Ai 64
 *     frame: bad extension                                     and so: short, undefined, wrong size
 *
 * LAPD_WRONG_LENGTH: `length` is over 1,028, or `room` is too small; 72 and twice the length are enough, and LAPD_MOST_TEXT
 * for each frame that a card takes or gives. LAPD_BAD_SIDE: it is no side. Nothing is written then. It is of no card, takes
 * no memory, and may be called at any time; of lapd.c it takes 24 KB of stack.
 */
LAPD_STATUS lapd_frame_text(const uint8_t *octets, size_t length, uint16_t side, char *text, size_t room);

/* ---- A clock ---------------------------------------------------------------------------------------------------- */

/* Keeps the timers of all lines of a card, for a caller that has none of its own. It reads no time: each moment is a
 * number that the caller hands in, in milliseconds from any origin. */
typedef struct lapd_clock {
    bool started;
    void *at;
} lapd_clock;

#define LAPD_CLOCK_NONE { false, LAPD_NULL }

/* The latest moment at which a clock takes an order: 2^63 ms. A card's own time stays before it (lapd_fall_due). */
#define LAPD_LATEST (UINT64_C(1) << 63)

/* A timer that fell due. */
typedef struct lapd_due {
    uint32_t line;
    lapd_timer timer;
    uint8_t reserved[9]; /* for a later version: 0 */
} lapd_due;

/* Starts a clock on which no timer runs, for a card of this configuration. Takes memory, as the only call on a clock.
 * LAPD_SECOND_START, the first bad field or LAPD_NO_MEMORY: there is no other clock than before. */
LAPD_STATUS lapd_clock_start(lapd_clock *clock, const lapd_config *config);

/* How long timers run that are started from now on, in milliseconds, 1 to 3,600,000 each: T200 and T203 of each link, T201 of
 * each line, and T202 of each line of a terminal. Those that run keep their moments. A clock begins with 1,000, 10,000, 1,000
 * and 2,000 (clauses 5.9.1, 5.9.8, 5.9.6 and 5.9.7). LAPD_WRONG_TIME: one is out of range, and nothing has changed. */
LAPD_STATUS lapd_clock_set_lengths(lapd_clock *clock, uint32_t t200, uint32_t t203, uint32_t t201, uint32_t t202);

/* Ends a clock and gives back all memory that its start took. LAPD_NO_CLOCK: nothing happens. */
LAPD_STATUS lapd_clock_free(lapd_clock *clock);

/* Carries out one order for a timer of a line at a moment. LAPD_NO_PLACE: the line has no place for the timer, and
 * nothing has changed. */
LAPD_STATUS lapd_clock_apply(lapd_clock *clock, uint32_t line, const lapd_order *order, uint64_t now);

/* Carries out all orders of a report, in order, at a moment: to be called with each report whose order_count is not 0.
 * LAPD_NO_PLACE: at least one found no place; the others were carried out. */
LAPD_STATUS lapd_clock_apply_report(lapd_clock *clock, uint32_t line, const lapd_report *report, uint64_t now);

/* Takes out the timer that falls due first, if its moment is not after `now`; hand it to lapd_expire. At one moment: by
 * line, then T200 before T203 before T201 or T202, by TEI, and call control before packet. LAPD_NO_TIMER: none is due. */
LAPD_STATUS lapd_clock_due(lapd_clock *clock, uint64_t now, lapd_due *due);

/* The moment of the timer that falls due first, due or not. LAPD_NO_TIMER: none runs. */
LAPD_STATUS lapd_clock_next(lapd_clock *clock, uint64_t *moment);

/* The same of a clock: an image of its timers, of their moments and of how long they run. It goes with that of its card, and is
 * saved and restored in the same way. */
LAPD_STATUS lapd_clock_save(lapd_clock *clock, uint8_t *image, size_t room, size_t *length);
LAPD_STATUS lapd_clock_restore(lapd_clock *clock, const uint8_t *image, size_t length);

#ifdef __cplusplus
}
#ifdef __GNUC__
#pragma GCC diagnostic pop
#endif
#endif

#ifdef LAPD_CHECKED
#include "lapd_checked.h"
#endif

/* ---- In words and by name: defined here ------------------------------------------------------------------------- */

/* Whether a report has anything to tell. */
LAPD_INLINE bool lapd_tells(const lapd_report *report) {
    return report->note_count != 0 || report->order_count != 0 || report->cause != 0 || report->lost != 0
           || report->given_up != 0 || report->given_up_16 != 0
           || report->begun != 0 || report->delivered != 0 || report->reopened != 0;
}

/* A block of memory in a heap: rounded up to 16 octets, and 16 octets for what the heap notes of it. */
LAPD_INLINE uint64_t lapd_block_octets(uint64_t octets) {
    return (octets + 15) / 16 * 16 + 16;
}

/* So many octets of memory are enough for the start of a card of frames whose configuration is in range, by blocks as above.
 * This is no promise of the proofs: tests start cards in so many, on a target with 8 octets a pointer. */
LAPD_INLINE uint64_t lapd_card_octets_frames(const lapd_config *config) {
    uint64_t lines = config->lines, slots = config->slots, links = 2u * config->terminals;
    uint64_t link = lapd_block_octets(8u * config->control) + lapd_block_octets(8u * config->queue);
    uint64_t line = lapd_block_octets(128 * links) + links * link + lapd_block_octets(16u * config->unit_queue)
                    + lapd_block_octets(64);
    return lapd_block_octets(368) + lapd_block_octets(944 * lines) + lines * line + lapd_block_octets(2 * slots)
           + lapd_block_octets(slots * config->n201) + lapd_block_octets(32 * lines);
}

/* The same of a card of octets, which has room besides for a frame that comes and one that goes on each line. */
LAPD_INLINE uint64_t lapd_card_octets(const lapd_config *config) {
    uint64_t lines = config->lines, frame = config->n201 + 6u;
    uint64_t port = lapd_block_octets(frame) + lapd_block_octets(frame * 6 / 5 + 2);
    return lapd_card_octets_frames(config) + lapd_block_octets(176 * lines) + lines * port;
}

/* The same of a card that keeps its own timers: one of frames, one of octets. */
LAPD_INLINE uint64_t lapd_card_octets_frames_timed(const lapd_config *config) {
    uint64_t places = config->lines * (4u * config->terminals + 2u);
    return lapd_card_octets_frames(config) + lapd_block_octets(24 * places) + lapd_block_octets(96);
}

LAPD_INLINE uint64_t lapd_card_octets_timed(const lapd_config *config) {
    return lapd_card_octets(config) + lapd_card_octets_frames_timed(config) - lapd_card_octets_frames(config);
}

/* The same of a clock. */
LAPD_INLINE uint64_t lapd_clock_octets(const lapd_config *config) {
    uint64_t lines = config->lines, places = 4u * config->terminals + 1u;
    return lapd_block_octets(128) + lapd_block_octets(8 * lines) + lapd_block_octets(24 * lines)
           + lapd_block_octets(24 * places * lines);
}

/* An octet with its bits turned round: bit 1 becomes bit 8. For an octet that has the bit that came first as bit 8. */
LAPD_INLINE uint8_t lapd_turned(uint8_t octet) {
    static const uint8_t low[16] = {0x00, 0x80, 0x40, 0xC0, 0x20, 0xA0, 0x60, 0xE0,
                                    0x10, 0x90, 0x50, 0xD0, 0x30, 0xB0, 0x70, 0xF0};
    static const uint8_t high[16] = {0x00, 0x08, 0x04, 0x0C, 0x02, 0x0A, 0x06, 0x0E,
                                     0x01, 0x09, 0x05, 0x0D, 0x03, 0x0B, 0x07, 0x0F};
    return low[octet & 15u] | high[octet >> 4];
}

/* A request with contents, which may lie in the report: they are copied before that is written. Without contents the pointer
 * may be null. */
LAPD_INLINE_STATUS lapd_request_with(lapd_card *card, uint32_t line, uint8_t request, uint8_t service, uint8_t tei,
                                     const uint8_t *contents, size_t length, lapd_report *report) {
    static const uint8_t nothing = 0;
    uint8_t copy[sizeof(lapd_report)];
    uintptr_t at = LAPD_ADDRESS(contents), from = LAPD_ADDRESS(report);
    if (length == 0)
        return lapd_request(card, line, request, service, tei, &nothing, 0, report);
    if (contents == LAPD_NULL || at < from || at >= from + sizeof *report || length > from + sizeof *report - at)
        return lapd_request(card, line, request, service, tei, contents, length, report);
    for (size_t i = 0; i < length; i++)
        copy[i] = contents[i];
    return lapd_request(card, line, request, service, tei, copy, length, report);
}

/*
 * A frame came, at this moment, to a card of frames that keeps its own timers. This tells the card the time by lapd_fall_due, and
 * hands the frame over by lapd_frame once nothing is due. A call does one of both: *is_done is false after the expiry of a timer,
 * which the report tells, and true after the frame. So call it until it is done:
 *
 *     for (bool is_done = false; !is_done && status == LAPD_OK;)
 *         if ((status = lapd_frame_at(&card, now, line, frame, length, &is_done, &report)) == LAPD_OK)
 *             ... what the report tells, of report.line ...
 *
 * Its statuses are those of both, except LAPD_NO_TIMER. If lapd_frame answers another than LAPD_OK, it is this moment already.
 *
 * That it is a call, and no test with LAPD_CHECKED, has a reason: a card reads no clock, so no test sees how old its moment is.
 */
LAPD_INLINE_STATUS lapd_frame_at(lapd_card *card, uint64_t now, uint32_t line, const uint8_t *octets, size_t length,
                                 bool *is_done, lapd_report *report) {
    if (card == LAPD_NULL || (octets == LAPD_NULL && length != 0) || is_done == LAPD_NULL || report == LAPD_NULL)
        return LAPD_WRONG_POINTER;
    uint32_t status = lapd_fall_due(card, now, report);
    *is_done = status == LAPD_NO_TIMER;
    return *is_done ? lapd_frame(card, line, octets, length, report) : status;
}

/* Somebody asks for something at this moment, as by lapd_request_with, and otherwise as with lapd_frame_at. Layer 3 that asks
 * while it is told a report needs no moment: it is that of the report. */
LAPD_INLINE_STATUS lapd_request_at(lapd_card *card, uint64_t now, uint32_t line, uint8_t request, uint8_t service,
                                   uint8_t tei, const uint8_t *contents, size_t length, bool *is_done,
                                   lapd_report *report) {
    if (card == LAPD_NULL || (contents == LAPD_NULL && length != 0) || is_done == LAPD_NULL || report == LAPD_NULL)
        return LAPD_WRONG_POINTER;
    uint32_t status = lapd_fall_due(card, now, report);
    *is_done = status == LAPD_NO_TIMER;
    return *is_done ? lapd_request_with(card, line, request, service, tei, contents, length, report) : status;
}

/* A controller has room at this moment: the time first, as with lapd_frame_at, and then the next frame by lapd_next_frame. After
 * the expiry of a timer *length is 0, and out is as it was. LAPD_NO_FRAME: nothing is due, and no frame waits.
 *
 *     while ((status = lapd_next_frame_at(&card, now, line, out, sizeof out, &length, &report)) == LAPD_OK)
 *         ... if length is not 0, out[0] to out[length - 1] to the controller; what the report tells, of report.line ...
 */
LAPD_INLINE_STATUS lapd_next_frame_at(lapd_card *card, uint64_t now, uint32_t line, uint8_t *out, size_t room,
                                      size_t *length, lapd_report *report) {
    if (card == LAPD_NULL || (out == LAPD_NULL && room != 0) || length == LAPD_NULL || report == LAPD_NULL)
        return LAPD_WRONG_POINTER;
    uint32_t status = lapd_fall_due(card, now, report);
    if (status == LAPD_NO_TIMER)
        return lapd_next_frame(card, line, out, room, length, report);
    if (status == LAPD_OK)
        *length = 0;
    return status;
}

/* Octets come and go at this moment, at a card of octets that keeps its own timers: the time first, as with lapd_frame_at, and
 * then lapd_exchange. After the expiry of a timer *steps is as it was; go on as long as there are steps. */
LAPD_INLINE_STATUS lapd_exchange_at(lapd_card *card, uint64_t now, uint32_t line, const uint8_t *in, size_t in_length,
                                    uint8_t *out, size_t out_length, size_t *steps, lapd_report *report) {
    if (card == LAPD_NULL || (in == LAPD_NULL && in_length != 0) || (out == LAPD_NULL && out_length != 0)
        || steps == LAPD_NULL || report == LAPD_NULL)
        return LAPD_WRONG_POINTER;
    uint32_t status = lapd_fall_due(card, now, report);
    return status == LAPD_NO_TIMER ? lapd_exchange(card, line, in, in_length, out, out_length, steps, report) : status;
}

/* Asks for the link (DL-ESTABLISH request). */
LAPD_INLINE_STATUS lapd_establish(lapd_card *card, uint32_t line, uint8_t service, uint8_t tei, lapd_report *report) {
    return lapd_request_with(card, line, LAPD_ESTABLISH, service, tei, LAPD_NULL, 0, report);
}

/* Releases the link (DL-RELEASE request). */
LAPD_INLINE_STATUS lapd_release(lapd_card *card, uint32_t line, uint8_t service, uint8_t tei, lapd_report *report) {
    return lapd_request_with(card, line, LAPD_RELEASE, service, tei, LAPD_NULL, 0, report);
}

/* Contents for the link, acknowledged (DL-DATA request); also those of the report itself. */
LAPD_INLINE_STATUS lapd_data(lapd_card *card, uint32_t line, uint8_t service, uint8_t tei, const uint8_t *contents,
                             size_t length, lapd_report *report) {
    return lapd_request_with(card, line, LAPD_DATA, service, tei, contents, length, report);
}

/* Contents without acknowledgement (DL-UNIT DATA request), also those of the report itself; LAPD_GROUP_TEI is all
 * terminals of the line, to which the network's side alone sends. */
LAPD_INLINE_STATUS lapd_unit(lapd_card *card, uint32_t line, uint8_t service, uint8_t tei, const uint8_t *contents,
                             size_t length, lapd_report *report) {
    return lapd_request_with(card, line, LAPD_UNIT, service, tei, contents, length, report);
}

/* Puts the TEI on the line (MDL-ASSIGN request). */
LAPD_INLINE_STATUS lapd_assign(lapd_card *card, uint32_t line, uint8_t tei, lapd_report *report) {
    return lapd_request_with(card, line, LAPD_ASSIGN, LAPD_CALL, tei, LAPD_NULL, 0, report);
}

/* Takes the TEI from the line (MDL-REMOVE request). The network's side sends a message then. A terminal sends none, is not told
 * LAPD_REMOVED, and stops verifying this TEI. LAPD_REFUSED_WRONG_SIDE: of LAPD_USER. */
LAPD_INLINE_STATUS lapd_remove(lapd_card *card, uint32_t line, uint8_t tei, lapd_report *report) {
    return lapd_request_with(card, line, LAPD_REMOVE, LAPD_CALL, tei, LAPD_NULL, 0, report);
}

/* Asks the terminals of the line who has the TEI. Of the network's side alone: otherwise LAPD_REFUSED_WRONG_SIDE. */
LAPD_INLINE_STATUS lapd_check(lapd_card *card, uint32_t line, uint8_t tei, lapd_report *report) {
    return lapd_request_with(card, line, LAPD_CHECK, LAPD_CALL, tei, LAPD_NULL, 0, report);
}

/* Tells the terminals that still use a TEI to give it up, or with LAPD_GROUP_TEI all terminals, as after a restart of the
 * network's side (clause 5.3.4). LAPD_REFUSED_TEI_TAKEN: the TEI, or for all any TEI, is on the line. Nothing is told. Of the
 * network's side alone: LAPD_REFUSED_WRONG_SIDE. */
LAPD_INLINE_STATUS lapd_disown(lapd_card *card, uint32_t line, uint8_t tei, lapd_report *report) {
    return lapd_request_with(card, line, LAPD_DISOWN, LAPD_CALL, tei, LAPD_NULL, 0, report);
}

/*
 * A terminal asks the network for a TEI: as layer 3 wants its first link, and again after LAPD_UNASSIGNED or LAPD_REMOVED.
 * The message goes with the next frames, and T202 runs until the network has answered. The answer is told as LAPD_ASSIGNED,
 * with the TEI that is on the line then. Without one it asks again as T202 expires, with another reference number; after
 * three times LAPD_UNASSIGNED ends it. LAPD_DENIED is told besides, and ends nothing.
 * LAPD_REFUSED_WRONG_SIDE: the card is no terminal. LAPD_REFUSED_TABLE_FULL: `terminals` TEIs are on the line.
 * LAPD_REFUSED_CHECK_RUNNING: it asks already, or verifies a TEI.
 */
LAPD_INLINE_STATUS lapd_ask_tei(lapd_card *card, uint32_t line, lapd_report *report) {
    return lapd_request_with(card, line, LAPD_ASK_TEI, LAPD_CALL, LAPD_GROUP_TEI, LAPD_NULL, 0, report);
}

/*
 * A terminal asks the network to check a TEI of its own, which another terminal may have, too (clause 5.3.5). A check request
 * of the network for it ends this, and the terminal answers it. If none comes until T202 has expired twice, the TEI leaves
 * the line: LAPD_REMOVED. A terminal verifies by itself when it hears that a TEI of its own is assigned, unless it asks or
 * verifies already.
 * LAPD_REFUSED_WRONG_SIDE: the card is no terminal. LAPD_REFUSED_BAD_TEI: the TEI is over 126. LAPD_REFUSED_NO_LINK: it is
 * not on the line. LAPD_REFUSED_CHECK_RUNNING: the terminal asks for a TEI, or verifies one.
 */
LAPD_INLINE_STATUS lapd_verify_tei(lapd_card *card, uint32_t line, uint8_t tei, lapd_report *report) {
    return lapd_request_with(card, line, LAPD_VERIFY_TEI, LAPD_CALL, tei, LAPD_NULL, 0, report);
}

/* Layer 3 can take no data of the link for now. */
LAPD_INLINE_STATUS lapd_busy(lapd_card *card, uint32_t line, uint8_t service, uint8_t tei, lapd_report *report) {
    return lapd_request_with(card, line, LAPD_BUSY, service, tei, LAPD_NULL, 0, report);
}

/* It can again. */
LAPD_INLINE_STATUS lapd_ready(lapd_card *card, uint32_t line, uint8_t service, uint8_t tei, lapd_report *report) {
    return lapd_request_with(card, line, LAPD_READY, service, tei, LAPD_NULL, 0, report);
}

/* The line is down, for example as layer 1 lost its synchronization: gives the link up, in each state, with all contents and
 * control frames that wait on it. It is in state 4 then, its timer stops, and its release is told as its state has it. The
 * TEI stays, unless a check or a verify of it that runs takes it off the line; unit data and messages of the line go on
 * waiting, which lapd_line_down gives up, too. LAPD_REFUSED_BAD_TEI and LAPD_REFUSED_NO_LINK alone refuse it. */
LAPD_INLINE_STATUS lapd_deactivate(lapd_card *card, uint32_t line, uint8_t service, uint8_t tei, lapd_report *report) {
    return lapd_request_with(card, line, LAPD_DEACTIVATE, service, tei, LAPD_NULL, 0, report);
}

/*
 * The same of a whole line, a link a call, since a report has no room for the releases of all: gives up the next link from a
 * place on, which is 0 for the first, and afterwards as the call leaves it. After the last link one call (LAPD_DOWN) gives
 * up what waits on the line and is of none: unit data, and messages of TEI management. A check that runs ends without a
 * result, and so does what a terminal asks or verifies. Its timer stops; that is the order of that report, except at a card
 * that keeps its own timers.
 * LAPD_NO_MORE_LINKS: the line is down, after two calls for each of its TEIs, and one more, if nothing else was asked or heard
 * there meanwhile. The TEIs stay. Begin again at 0 when the line goes down the next time.
 *
 *     uint8_t place = 0;
 *     while (lapd_line_down(&card, line, &place, &report) == LAPD_OK)
 *         ... the report's note, and its orders, if it has any ...
 */
LAPD_INLINE_STATUS lapd_line_down(lapd_card *card, uint32_t line, uint8_t *place, lapd_report *report) {
    lapd_link link;
    if (place == LAPD_NULL || report == LAPD_NULL)
        return LAPD_WRONG_POINTER;
    uint32_t status = lapd_next_link(card, line, place, &link);
    if (status == LAPD_OK)
        return lapd_deactivate(card, line, link.service, link.tei, report);
    if (status != LAPD_NO_MORE_LINKS || *place == 0xFF)
        return status;
    *place = 0xFF; /* after all links: the line itself comes last, once */
    return lapd_request_with(card, line, LAPD_DOWN, LAPD_CALL, 0, LAPD_NULL, 0, report);
}

/* A status in words: a refusal by its name in docs/FORMAT.md. */
LAPD_INLINE const char *lapd_status_text(uint32_t status) {
    switch (status) {
    case LAPD_OK: return "ok";
    case LAPD_REFUSED_BAD_TEI: return "bad-tei";
    case LAPD_REFUSED_NO_LINK: return "no-link";
    case LAPD_REFUSED_WRONG_STATE: return "wrong-state";
    case LAPD_REFUSED_TOO_LONG: return "too-long";
    case LAPD_REFUSED_QUEUE_FULL: return "queue-full";
    case LAPD_REFUSED_POOL_FULL: return "pool-full";
    case LAPD_REFUSED_TEI_TAKEN: return "tei-taken";
    case LAPD_REFUSED_TABLE_FULL: return "table-full";
    case LAPD_REFUSED_CHECK_RUNNING: return "check-running";
    case LAPD_REFUSED_CONTROL_FULL: return "control-full";
    case LAPD_REFUSED_WRONG_SIDE: return "wrong-side";
    case LAPD_NO_CARD: return "no card";
    case LAPD_NO_CLOCK: return "no clock";
    case LAPD_SECOND_START: return "second start";
    case LAPD_WRONG_LINE: return "wrong line";
    case LAPD_WRONG_SERVICE: return "wrong service";
    case LAPD_WRONG_TEI: return "wrong TEI";
    case LAPD_WRONG_TIMER: return "wrong timer";
    case LAPD_WRONG_REQUEST: return "wrong request";
    case LAPD_WRONG_LENGTH: return "wrong length";
    case LAPD_WRONG_ORDER: return "wrong order";
    case LAPD_WRONG_TIME: return "wrong time";
    case LAPD_WRONG_POINTER: return "wrong pointer";
    case LAPD_NO_MEMORY: return "out of memory";
    case LAPD_NO_TIMER: return "no timer";
    case LAPD_NO_PLACE: return "no place";
    case LAPD_NO_MORE_LINKS: return "no more links";
    case LAPD_WRONG_CARD: return "wrong card";
    case LAPD_WRONG_CAUSE: return "wrong cause";
    case LAPD_NO_FRAME: return "no frame";
    case LAPD_BAD_LINES: return "lines is out of range";
    case LAPD_BAD_TERMINALS: return "terminals is out of range";
    case LAPD_BAD_K: return "k is out of range";
    case LAPD_BAD_K16: return "k16 is out of range";
    case LAPD_BAD_QUEUE: return "queue is less than k or k16, or out of range";
    case LAPD_BAD_UNIT_QUEUE: return "unit_queue is out of range";
    case LAPD_BAD_CONTROL: return "control is out of range";
    case LAPD_BAD_SLOTS: return "slots is out of range";
    case LAPD_BAD_N201: return "n201 is out of range";
    case LAPD_BAD_N200: return "n200 is out of range";
    case LAPD_BAD_SIDE: return "side is out of range";
    case LAPD_BAD_SAPI: return "sapi is out of range";
    case LAPD_BAD_READING: return "reading is out of range";
    case LAPD_BAD_RESERVED: return "a reserved place is not 0";
    case LAPD_BAD_IMAGE: return "bad image";
    case LAPD_FRAME_SHORT: return "frame: short";
    case LAPD_FRAME_EXTENSION: return "frame: bad extension";
    case LAPD_FRAME_UNDEFINED: return "frame: undefined";
    case LAPD_FRAME_SIZE: return "frame: wrong size";
    default: return "unknown status";
    }
}

/* A note in words: its name in docs/FORMAT.md, with -16 for a packet link. */
LAPD_INLINE const char *lapd_note_text(const lapd_note *note) {
    bool packet = note->service == LAPD_PACKET;
    switch (note->note) {
    case LAPD_ESTABLISH_INDICATION: return packet ? "establish-indication-16" : "establish-indication";
    case LAPD_ESTABLISH_CONFIRM: return packet ? "establish-confirm-16" : "establish-confirm";
    case LAPD_RELEASE_INDICATION: return packet ? "release-indication-16" : "release-indication";
    case LAPD_RELEASE_CONFIRM: return packet ? "release-confirm-16" : "release-confirm";
    case LAPD_DATA_INDICATION: return packet ? "data-16" : "data";
    case LAPD_UNIT_INDICATION: return packet ? "unit-16" : "unit";
    case LAPD_ERROR_INDICATION: return packet ? "error-16" : "error";
    case LAPD_ASSIGNED: return "assigned";
    case LAPD_REMOVED: return "removed";
    case LAPD_DOUBLED: return "doubled";
    case LAPD_XID_INDICATION: return packet ? "xid-16" : "xid";
    case LAPD_DENIED: return "denied";
    case LAPD_UNASSIGNED: return "unassigned";
    case LAPD_REMOVE_ALL: return "remove-all";
    default: return "unknown note";
    }
}

/*
 * The same for a card of this configuration: of a packet link with its SAPI in place of -16. It stands in front of `text`, which
 * ends with a 0.
 *
 *     establish-confirm             of call control
 *     establish-confirm sapi 62     of a packet link, if the configuration's sapi is 62; if it is 0, sapi 16
 *
 * LAPD_WRONG_LENGTH: `room` is too small; 29 are enough. Nothing is written then.
 */
LAPD_INLINE_STATUS lapd_note_text_of(const lapd_note *note, const lapd_config *config, char *text, size_t room) {
    if (note == LAPD_NULL || config == LAPD_NULL || (text == LAPD_NULL && room != 0))
        return LAPD_WRONG_POINTER;
    lapd_note plain = *note;
    plain.service = LAPD_CALL;
    const char *name = lapd_note_text(&plain), *packet = lapd_note_text(note);
    static const char digits[] = "0123456789";
    unsigned sapi = config->sapi == 0 ? 16u : config->sapi % 100u;
    char ending[] = {' ', 's', 'a', 'p', 'i', ' ', digits[sapi / 10], digits[sapi % 10], '\0'};
    size_t length = 0, more = 0;
    while (name[length] != '\0')
        length++;
    if (packet[length] != '\0') /* it has an ending for a packet link */
        more = sapi < 10 ? sizeof ending - 2 : sizeof ending - 1;
    if (length + more >= room)
        return LAPD_WRONG_LENGTH;
    for (size_t i = 0; i < length; i++)
        text[i] = name[i];
    for (size_t i = 0; i < more; i++)
        text[length + i] = ending[i < 6 ? i : i + 8 - more];
    text[length + more] = '\0';
    return LAPD_OK;
}

/* A cause in words: its name in docs/FORMAT.md. */
LAPD_INLINE const char *lapd_cause_text(uint8_t cause) {
    switch (cause) {
    case 0: return "none";
    case LAPD_ABORT: return "abort";
    case LAPD_RAGGED: return "ragged";
    case LAPD_SHORT: return "short";
    case LAPD_FCS: return "fcs";
    case LAPD_EXTENSION: return "extension";
    case LAPD_SAPI: return "sapi";
    case LAPD_TEI: return "tei";
    case LAPD_UNSERVED: return "unserved";
    default: return "unknown cause";
    }
}

/* A counter in words, by its place: its name in lapdsim(5). */
LAPD_INLINE const char *lapd_counter_text(unsigned place) {
    static const char *const names[LAPD_COUNTERS] = {
        "heard-i", "heard-rr", "heard-rnr", "heard-rej", "heard-sabme", "heard-disc", "heard-ui", "heard-ua",
        "heard-dm", "heard-frmr", "heard-xid", "heard-undefined", "begun-i", "begun-rr", "begun-rnr", "begun-rej",
        "begun-sabme", "begun-disc", "begun-ui", "begun-ua", "begun-dm", "begun-frmr", "begun-xid", "begun-undefined",
        "heard-octets", "begun-octets", "heard-polls", "begun-polls", "heard-overlong", "dropped-abort",
        "dropped-ragged", "dropped-short", "dropped-fcs", "dropped-extension", "dropped-sapi", "dropped-tei",
        "dropped-unserved", "errors-a", "errors-b", "errors-c", "errors-d", "errors-e", "errors-f", "errors-g",
        "errors-h", "errors-i", "errors-j", "errors-k", "errors-l", "errors-n", "errors-o",
        "told-establish-indication", "told-establish-confirm", "told-release-indication", "told-release-confirm",
        "told-data", "told-unit", "told-xid", "told-assigned", "told-removed", "told-doubled", "told-denied",
        "told-unassigned", "told-remove-all", "lost",
        "heard-request", "heard-assigned", "heard-denied", "heard-check-request", "heard-check-response", "heard-remove",
        "heard-verify", "begun-request", "begun-assigned", "begun-denied", "begun-check-request", "begun-check-response",
        "begun-remove", "begun-verify",
    };
    return place < LAPD_COUNTERS ? names[place] : "unknown counter";
}

#endif
