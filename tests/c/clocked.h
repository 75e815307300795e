/*
 * clocked.h: the calls of a card that keeps its own timers, over a card whose timers are on a clock beside it, as
 * examples/c/clock.c shows that. A program that is compiled with `-include clocked.h`, and clocked.c, does so without a change:
 * what it prints has to be the same. For tests alone.
 */
#ifndef CLOCKED_H
#define CLOCKED_H

#define lapd_card_start_timed clocked_start
#define lapd_card_start_frames_timed clocked_start_frames
#define lapd_card_free clocked_free
#define lapd_octet clocked_octet
#define lapd_pull clocked_pull
#define lapd_exchange clocked_exchange
#define lapd_frame clocked_frame
#define lapd_frame_failed clocked_frame_failed
#define lapd_next_frame clocked_next_frame
#define lapd_expire clocked_expire
#define lapd_request clocked_request
#define lapd_fall_due clocked_fall_due
#define lapd_next_moment clocked_next_moment

#endif
