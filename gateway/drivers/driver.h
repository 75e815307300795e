/*
 * driver.h: what is below lines. A driver serves lines of one kind: it has their layer 1, takes their frames and gives those that
 * came. It tells of layer 1, of frames and of room by the functions of lines.h: line_up, line_down, line_frame, line_failed,
 * line_has_room.
 */
#ifndef DRIVER_H
#define DRIVER_H

#include <stdbool.h>
#include <stddef.h>
#include <stdint.h>

#include "../configuration.h"

struct line;

typedef enum {
    DRIVER_SENT,     /* the frame goes, and there is room for another */
    DRIVER_SENT_ALL, /* the frame goes, and there is no room: line_has_room will be called */
    DRIVER_FULL      /* there was no room: line_has_room will be called, and then the frame is handed over again */
} driver_result;

typedef struct {
    const char *name;

    /* Before the first line: opens what all lines share. False: it was told. */
    bool (*begin)(const configuration *from);

    /* A line begins. Its own part is a pointer in `line.port`, which is NULL before. If `line.adopted` is not -1, it goes on with
     * that descriptor, which is the driver's from then on. False: it was told, and the line has no part. */
    bool (*open)(struct line *own);

    /* A line ends. */
    void (*close)(struct line *own);

    /* A frame goes, without its check. Layer 1 is there, and there is room as far as is known. */
    driver_result (*send)(struct line *own, const uint8_t *frame, size_t length);

    /* The descriptor of a line that has a part, for a standby. */
    int (*descriptor)(const struct line *own);

    /* A frame waits, and layer 1 is not there. It is called once a second at most. */
    void (*activate)(struct line *own);
} driver;

extern const driver driver_frames, driver_misdn, driver_dahdi;

#endif
