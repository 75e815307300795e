/* capture.h: frames of chosen lines, copied to a file (pcapng) and to a UDP address (GSMTAP), for Wireshark. */
#ifndef CAPTURE_H
#define CAPTURE_H

#include <stdbool.h>
#include <stddef.h>
#include <stdint.h>

#include "configuration.h"

struct line;

typedef struct capture capture;

/* Opens the captures of a configuration in place of those before. False: it was told. */
bool captures_begin(const configuration *from);
void captures_end(void);

/* The capture that a line has, or NULL. */
capture *capture_of(uint32_t identifier);

/* A frame came from a line, or goes there, without its check. */
void capture_frame(capture *own, const struct line *of, bool is_sent, const uint8_t *frame, size_t length);

#endif
