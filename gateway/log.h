/* log.h: the log on standard error, one line an event. If that is the journal, a line begins with its level. */
#ifndef LOG_H
#define LOG_H

#include <stdbool.h>
#include <stddef.h>
#include <stdint.h>

typedef enum { LOG_FAULT = 3, LOG_WARN = 4, LOG_EVENT = 5, LOG_MORE = 6 } log_level;

/* Looks at what standard error is. */
void log_begin(void);

/* An event, in one line without its end. */
__attribute__((format(printf, 2, 3))) void log_line(log_level level, const char *format, ...);

/* The same of what a peer can cause as often as it likes: at most 20 lines a second, and how many were left out. */
__attribute__((format(printf, 2, 3))) void log_limited(log_level level, const char *format, ...);

/* A frame without its check, in words, at a line whose program is this side of it. */
void log_frame(uint32_t identifier, uint16_t side, bool is_sent, const uint8_t *octets, size_t length);

#endif
