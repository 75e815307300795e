/*
 * lapd_checked.h: the calls of lapd.h by the same names, which look at their pointers first. If one is null, the answer is
 * LAPD_WRONG_POINTER, and nothing has changed; a buffer of length 0 may be null. With LAPD_CHECKED defined, lapd.h includes
 * it. The library of one file, lapd.c, looks at them by itself.
 *
 * Written by tools/checked; not to be edited.
 */
#ifndef LAPD_CHECKED_H
#define LAPD_CHECKED_H

LAPD_INLINE_STATUS lapd_checked_card_start(lapd_card *card, const lapd_config *config) {
    if (card == LAPD_NULL || config == LAPD_NULL)
        return LAPD_WRONG_POINTER;
    return lapd_card_start(card, config);
}
#define lapd_card_start lapd_checked_card_start

LAPD_INLINE_STATUS lapd_checked_card_start_frames(lapd_card *card, const lapd_config *config) {
    if (card == LAPD_NULL || config == LAPD_NULL)
        return LAPD_WRONG_POINTER;
    return lapd_card_start_frames(card, config);
}
#define lapd_card_start_frames lapd_checked_card_start_frames

LAPD_INLINE_STATUS lapd_checked_card_start_timed(lapd_card *card, const lapd_config *config,
                                                 const lapd_lengths *lengths) {
    if (card == LAPD_NULL || config == LAPD_NULL || lengths == LAPD_NULL)
        return LAPD_WRONG_POINTER;
    return lapd_card_start_timed(card, config, lengths);
}
#define lapd_card_start_timed lapd_checked_card_start_timed

LAPD_INLINE_STATUS lapd_checked_card_start_frames_timed(lapd_card *card, const lapd_config *config,
                                                        const lapd_lengths *lengths) {
    if (card == LAPD_NULL || config == LAPD_NULL || lengths == LAPD_NULL)
        return LAPD_WRONG_POINTER;
    return lapd_card_start_frames_timed(card, config, lengths);
}
#define lapd_card_start_frames_timed lapd_checked_card_start_frames_timed

LAPD_INLINE_STATUS lapd_checked_card_free(lapd_card *card) {
    if (card == LAPD_NULL)
        return LAPD_WRONG_POINTER;
    return lapd_card_free(card);
}
#define lapd_card_free lapd_checked_card_free

LAPD_INLINE_STATUS lapd_checked_octet(lapd_card *card, uint32_t line, uint8_t octet, lapd_report *report) {
    if (card == LAPD_NULL || report == LAPD_NULL)
        return LAPD_WRONG_POINTER;
    return lapd_octet(card, line, octet, report);
}
#define lapd_octet lapd_checked_octet

LAPD_INLINE_STATUS lapd_checked_pull(lapd_card *card, uint32_t line, uint8_t *octet, lapd_report *report) {
    if (card == LAPD_NULL || octet == LAPD_NULL || report == LAPD_NULL)
        return LAPD_WRONG_POINTER;
    return lapd_pull(card, line, octet, report);
}
#define lapd_pull lapd_checked_pull

LAPD_INLINE_STATUS lapd_checked_exchange(lapd_card *card, uint32_t line, const uint8_t *in, size_t in_length,
                                         uint8_t *out, size_t out_length, size_t *steps, lapd_report *report) {
    static uint8_t no_octet = 0;
    if (card == LAPD_NULL || (in == LAPD_NULL && in_length != 0) || (out == LAPD_NULL && out_length != 0) ||
        steps == LAPD_NULL || report == LAPD_NULL)
        return LAPD_WRONG_POINTER;
    return lapd_exchange(card, line, in == LAPD_NULL ? &no_octet : in, in_length, out == LAPD_NULL ? &no_octet : out,
                         out_length, steps, report);
}
#define lapd_exchange lapd_checked_exchange

LAPD_INLINE_STATUS lapd_checked_frame(lapd_card *card, uint32_t line, const uint8_t *octets, size_t length,
                                      lapd_report *report) {
    static uint8_t no_octet = 0;
    if (card == LAPD_NULL || (octets == LAPD_NULL && length != 0) || report == LAPD_NULL)
        return LAPD_WRONG_POINTER;
    return lapd_frame(card, line, octets == LAPD_NULL ? &no_octet : octets, length, report);
}
#define lapd_frame lapd_checked_frame

LAPD_INLINE_STATUS lapd_checked_frame_failed(lapd_card *card, uint32_t line, uint8_t cause, lapd_report *report) {
    if (card == LAPD_NULL || report == LAPD_NULL)
        return LAPD_WRONG_POINTER;
    return lapd_frame_failed(card, line, cause, report);
}
#define lapd_frame_failed lapd_checked_frame_failed

LAPD_INLINE_STATUS lapd_checked_next_frame(lapd_card *card, uint32_t line, uint8_t *out, size_t room, size_t *length,
                                           lapd_report *report) {
    static uint8_t no_octet = 0;
    if (card == LAPD_NULL || (out == LAPD_NULL && room != 0) || length == LAPD_NULL || report == LAPD_NULL)
        return LAPD_WRONG_POINTER;
    return lapd_next_frame(card, line, out == LAPD_NULL ? &no_octet : out, room, length, report);
}
#define lapd_next_frame lapd_checked_next_frame

LAPD_INLINE_STATUS lapd_checked_next_waiting(lapd_card *card, uint32_t from, uint32_t *line) {
    if (card == LAPD_NULL || line == LAPD_NULL)
        return LAPD_WRONG_POINTER;
    return lapd_next_waiting(card, from, line);
}
#define lapd_next_waiting lapd_checked_next_waiting

LAPD_INLINE_STATUS lapd_checked_expire(lapd_card *card, uint32_t line, const lapd_timer *timer, lapd_report *report) {
    if (card == LAPD_NULL || timer == LAPD_NULL || report == LAPD_NULL)
        return LAPD_WRONG_POINTER;
    return lapd_expire(card, line, timer, report);
}
#define lapd_expire lapd_checked_expire

LAPD_INLINE_STATUS lapd_checked_request(lapd_card *card, uint32_t line, uint8_t request, uint8_t service, uint8_t tei,
                                        const uint8_t *contents, size_t length, lapd_report *report) {
    static uint8_t no_octet = 0;
    if (card == LAPD_NULL || (contents == LAPD_NULL && length != 0) || report == LAPD_NULL)
        return LAPD_WRONG_POINTER;
    return lapd_request(card, line, request, service, tei, contents == LAPD_NULL ? &no_octet : contents, length,
                        report);
}
#define lapd_request lapd_checked_request

LAPD_INLINE_STATUS lapd_checked_fall_due(lapd_card *card, uint64_t now, lapd_report *report) {
    if (card == LAPD_NULL || report == LAPD_NULL)
        return LAPD_WRONG_POINTER;
    return lapd_fall_due(card, now, report);
}
#define lapd_fall_due lapd_checked_fall_due

LAPD_INLINE_STATUS lapd_checked_now(lapd_card *card, uint64_t *moment) {
    if (card == LAPD_NULL || moment == LAPD_NULL)
        return LAPD_WRONG_POINTER;
    return lapd_now(card, moment);
}
#define lapd_now lapd_checked_now

LAPD_INLINE_STATUS lapd_checked_next_moment(lapd_card *card, uint64_t *moment) {
    if (card == LAPD_NULL || moment == LAPD_NULL)
        return LAPD_WRONG_POINTER;
    return lapd_next_moment(card, moment);
}
#define lapd_next_moment lapd_checked_next_moment

LAPD_INLINE_STATUS lapd_checked_changed_at(lapd_card *card, uint32_t line, uint8_t service, uint8_t tei,
                                           uint64_t *moment) {
    if (card == LAPD_NULL || moment == LAPD_NULL)
        return LAPD_WRONG_POINTER;
    return lapd_changed_at(card, line, service, tei, moment);
}
#define lapd_changed_at lapd_checked_changed_at

LAPD_INLINE_STATUS lapd_checked_card_set_lengths(lapd_card *card, const lapd_lengths *lengths) {
    if (card == LAPD_NULL || lengths == LAPD_NULL)
        return LAPD_WRONG_POINTER;
    return lapd_card_set_lengths(card, lengths);
}
#define lapd_card_set_lengths lapd_checked_card_set_lengths

LAPD_INLINE_STATUS lapd_checked_state(lapd_card *card, uint32_t line, uint8_t service, uint8_t tei, uint8_t *state) {
    if (card == LAPD_NULL || state == LAPD_NULL)
        return LAPD_WRONG_POINTER;
    return lapd_state(card, line, service, tei, state);
}
#define lapd_state lapd_checked_state

LAPD_INLINE_STATUS lapd_checked_next_link(lapd_card *card, uint32_t line, uint8_t *place, lapd_link *link) {
    if (card == LAPD_NULL || place == LAPD_NULL || link == LAPD_NULL)
        return LAPD_WRONG_POINTER;
    return lapd_next_link(card, line, place, link);
}
#define lapd_next_link lapd_checked_next_link

LAPD_INLINE_STATUS lapd_checked_room(lapd_card *card, uint32_t line, uint8_t service, uint8_t tei,
                                     struct lapd_room *room) {
    if (card == LAPD_NULL || room == LAPD_NULL)
        return LAPD_WRONG_POINTER;
    return lapd_room(card, line, service, tei, room);
}
#define lapd_room(card, line, service, tei, room) lapd_checked_room(card, line, service, tei, room)

LAPD_INLINE_STATUS lapd_checked_begun(lapd_card *card, uint32_t line, lapd_head *head) {
    if (card == LAPD_NULL || head == LAPD_NULL)
        return LAPD_WRONG_POINTER;
    return lapd_begun(card, line, head);
}
#define lapd_begun lapd_checked_begun

LAPD_INLINE_STATUS lapd_checked_heard(lapd_card *card, uint32_t line, lapd_head *head) {
    if (card == LAPD_NULL || head == LAPD_NULL)
        return LAPD_WRONG_POINTER;
    return lapd_heard(card, line, head);
}
#define lapd_heard lapd_checked_heard

LAPD_INLINE_STATUS lapd_checked_begun_frame(lapd_card *card, uint32_t line, uint8_t *out, size_t room, size_t *length) {
    static uint8_t no_octet = 0;
    if (card == LAPD_NULL || (out == LAPD_NULL && room != 0) || length == LAPD_NULL)
        return LAPD_WRONG_POINTER;
    return lapd_begun_frame(card, line, out == LAPD_NULL ? &no_octet : out, room, length);
}
#define lapd_begun_frame lapd_checked_begun_frame

LAPD_INLINE_STATUS lapd_checked_heard_frame(lapd_card *card, uint32_t line, uint8_t *out, size_t room, size_t *length) {
    static uint8_t no_octet = 0;
    if (card == LAPD_NULL || (out == LAPD_NULL && room != 0) || length == LAPD_NULL)
        return LAPD_WRONG_POINTER;
    return lapd_heard_frame(card, line, out == LAPD_NULL ? &no_octet : out, room, length);
}
#define lapd_heard_frame lapd_checked_heard_frame

LAPD_INLINE_STATUS lapd_checked_counters(lapd_card *card, uint32_t line, struct lapd_counters *counters) {
    if (card == LAPD_NULL || counters == LAPD_NULL)
        return LAPD_WRONG_POINTER;
    return lapd_counters(card, line, counters);
}
#define lapd_counters(card, line, counters) lapd_checked_counters(card, line, counters)

LAPD_INLINE_STATUS lapd_checked_link_counters(lapd_card *card, uint32_t line, uint8_t service, uint8_t tei,
                                              struct lapd_link_counters *counters) {
    if (card == LAPD_NULL || counters == LAPD_NULL)
        return LAPD_WRONG_POINTER;
    return lapd_link_counters(card, line, service, tei, counters);
}
#define lapd_link_counters(card, line, service, tei, counters) lapd_checked_link_counters(card, line, service, tei, counters)

LAPD_INLINE_STATUS lapd_checked_stored(lapd_card *card, uint32_t *octets) {
    if (card == LAPD_NULL || octets == LAPD_NULL)
        return LAPD_WRONG_POINTER;
    return lapd_stored(card, octets);
}
#define lapd_stored lapd_checked_stored

LAPD_INLINE_STATUS lapd_checked_limit(lapd_card *card, uint32_t *octets) {
    if (card == LAPD_NULL || octets == LAPD_NULL)
        return LAPD_WRONG_POINTER;
    return lapd_limit(card, octets);
}
#define lapd_limit lapd_checked_limit

LAPD_INLINE_STATUS lapd_checked_lines(lapd_card *card, uint32_t *lines) {
    if (card == LAPD_NULL || lines == LAPD_NULL)
        return LAPD_WRONG_POINTER;
    return lapd_lines(card, lines);
}
#define lapd_lines lapd_checked_lines

LAPD_INLINE_STATUS lapd_checked_card_save(lapd_card *card, uint8_t *image, size_t room, size_t *length) {
    static uint8_t no_octet = 0;
    if (card == LAPD_NULL || (image == LAPD_NULL && room != 0) || length == LAPD_NULL)
        return LAPD_WRONG_POINTER;
    return lapd_card_save(card, image == LAPD_NULL ? &no_octet : image, room, length);
}
#define lapd_card_save lapd_checked_card_save

LAPD_INLINE_STATUS lapd_checked_card_restore(lapd_card *card, const uint8_t *image, size_t length) {
    static uint8_t no_octet = 0;
    if (card == LAPD_NULL || (image == LAPD_NULL && length != 0))
        return LAPD_WRONG_POINTER;
    return lapd_card_restore(card, image == LAPD_NULL ? &no_octet : image, length);
}
#define lapd_card_restore lapd_checked_card_restore

LAPD_INLINE_STATUS lapd_checked_frame_read(const uint8_t *octets, size_t length, uint16_t side, lapd_fields *fields) {
    static uint8_t no_octet = 0;
    if ((octets == LAPD_NULL && length != 0) || fields == LAPD_NULL)
        return LAPD_WRONG_POINTER;
    return lapd_frame_read(octets == LAPD_NULL ? &no_octet : octets, length, side, fields);
}
#define lapd_frame_read lapd_checked_frame_read

LAPD_INLINE_STATUS lapd_checked_frame_text(const uint8_t *octets, size_t length, uint16_t side, char *text,
                                           size_t room) {
    static uint8_t no_octet = 0;
    static char no_text = 0;
    if ((octets == LAPD_NULL && length != 0) || (text == LAPD_NULL && room != 0))
        return LAPD_WRONG_POINTER;
    return lapd_frame_text(octets == LAPD_NULL ? &no_octet : octets, length, side, text == LAPD_NULL ? &no_text : text,
                           room);
}
#define lapd_frame_text lapd_checked_frame_text

LAPD_INLINE_STATUS lapd_checked_clock_start(lapd_clock *clock, const lapd_config *config) {
    if (clock == LAPD_NULL || config == LAPD_NULL)
        return LAPD_WRONG_POINTER;
    return lapd_clock_start(clock, config);
}
#define lapd_clock_start lapd_checked_clock_start

LAPD_INLINE_STATUS lapd_checked_clock_set_lengths(lapd_clock *clock, uint32_t t200, uint32_t t203, uint32_t t201,
                                                  uint32_t t202) {
    if (clock == LAPD_NULL)
        return LAPD_WRONG_POINTER;
    return lapd_clock_set_lengths(clock, t200, t203, t201, t202);
}
#define lapd_clock_set_lengths lapd_checked_clock_set_lengths

LAPD_INLINE_STATUS lapd_checked_clock_free(lapd_clock *clock) {
    if (clock == LAPD_NULL)
        return LAPD_WRONG_POINTER;
    return lapd_clock_free(clock);
}
#define lapd_clock_free lapd_checked_clock_free

LAPD_INLINE_STATUS lapd_checked_clock_apply(lapd_clock *clock, uint32_t line, const lapd_order *order, uint64_t now) {
    if (clock == LAPD_NULL || order == LAPD_NULL)
        return LAPD_WRONG_POINTER;
    return lapd_clock_apply(clock, line, order, now);
}
#define lapd_clock_apply lapd_checked_clock_apply

LAPD_INLINE_STATUS lapd_checked_clock_apply_report(lapd_clock *clock, uint32_t line, const lapd_report *report,
                                                   uint64_t now) {
    if (clock == LAPD_NULL || report == LAPD_NULL)
        return LAPD_WRONG_POINTER;
    return lapd_clock_apply_report(clock, line, report, now);
}
#define lapd_clock_apply_report lapd_checked_clock_apply_report

LAPD_INLINE_STATUS lapd_checked_clock_due(lapd_clock *clock, uint64_t now, lapd_due *due) {
    if (clock == LAPD_NULL || due == LAPD_NULL)
        return LAPD_WRONG_POINTER;
    return lapd_clock_due(clock, now, due);
}
#define lapd_clock_due lapd_checked_clock_due

LAPD_INLINE_STATUS lapd_checked_clock_next(lapd_clock *clock, uint64_t *moment) {
    if (clock == LAPD_NULL || moment == LAPD_NULL)
        return LAPD_WRONG_POINTER;
    return lapd_clock_next(clock, moment);
}
#define lapd_clock_next lapd_checked_clock_next

LAPD_INLINE_STATUS lapd_checked_clock_save(lapd_clock *clock, uint8_t *image, size_t room, size_t *length) {
    static uint8_t no_octet = 0;
    if (clock == LAPD_NULL || (image == LAPD_NULL && room != 0) || length == LAPD_NULL)
        return LAPD_WRONG_POINTER;
    return lapd_clock_save(clock, image == LAPD_NULL ? &no_octet : image, room, length);
}
#define lapd_clock_save lapd_checked_clock_save

LAPD_INLINE_STATUS lapd_checked_clock_restore(lapd_clock *clock, const uint8_t *image, size_t length) {
    static uint8_t no_octet = 0;
    if (clock == LAPD_NULL || (image == LAPD_NULL && length != 0))
        return LAPD_WRONG_POINTER;
    return lapd_clock_restore(clock, image == LAPD_NULL ? &no_octet : image, length);
}
#define lapd_clock_restore lapd_checked_clock_restore

#endif
