/*
 * layout.c: where the fields of lapd.h's structs lie. The library's structs are #[repr(C)] with the same fields in the
 * same order (crates/lapd_c); these are the numbers that such a layout has on x86-64, as tools/names counts them.
 */
#include <stddef.h>

#include "lapd.h"

#define AT(type, field, place) _Static_assert(offsetof(type, field) == (place), #type "." #field)
#define OCTETS(type, size) _Static_assert(sizeof(type) == (size), #type)

/* tools/names: layout */
OCTETS(lapd_config, 64);
AT(lapd_config, lines, 0);
AT(lapd_config, terminals, 2);
AT(lapd_config, k, 4);
AT(lapd_config, k16, 6);
AT(lapd_config, queue, 8);
AT(lapd_config, unit_queue, 10);
AT(lapd_config, control, 12);
AT(lapd_config, slots, 14);
AT(lapd_config, n201, 16);
AT(lapd_config, n200, 18);
AT(lapd_config, side, 20);
AT(lapd_config, seed, 22);
AT(lapd_config, sapi, 24);
AT(lapd_config, reading, 26);
AT(lapd_config, reserved, 28);
OCTETS(lapd_note, 8);
AT(lapd_note, note, 0);
AT(lapd_note, service, 1);
AT(lapd_note, tei, 2);
AT(lapd_note, error, 3);
AT(lapd_note, reserved, 4);
OCTETS(lapd_timer, 3);
AT(lapd_timer, timer, 0);
AT(lapd_timer, service, 1);
AT(lapd_timer, tei, 2);
OCTETS(lapd_order, 4);
AT(lapd_order, order, 0);
AT(lapd_order, timer, 1);
OCTETS(lapd_report, 344);
AT(lapd_report, note_count, 0);
AT(lapd_report, order_count, 1);
AT(lapd_report, cause, 2);
AT(lapd_report, lost, 3);
AT(lapd_report, begun, 4);
AT(lapd_report, delivered, 5);
AT(lapd_report, length, 6);
AT(lapd_report, notes, 8);
AT(lapd_report, orders, 40);
AT(lapd_report, contents, 56);
AT(lapd_report, more, 316);
AT(lapd_report, expired, 317);
AT(lapd_report, reopened, 320);
AT(lapd_report, reopened_service, 321);
AT(lapd_report, reopened_tei, 322);
AT(lapd_report, line, 324);
AT(lapd_report, given_up, 326);
AT(lapd_report, given_up_16, 327);
AT(lapd_report, given_up_tei, 328);
AT(lapd_report, reserved, 329);
OCTETS(lapd_card, 16);
AT(lapd_card, started, 0);
AT(lapd_card, at, 8);
OCTETS(lapd_lengths, 32);
AT(lapd_lengths, t200, 0);
AT(lapd_lengths, t203, 4);
AT(lapd_lengths, t201, 8);
AT(lapd_lengths, t202, 12);
AT(lapd_lengths, reserved, 16);
OCTETS(lapd_link, 8);
AT(lapd_link, service, 0);
AT(lapd_link, tei, 1);
AT(lapd_link, state, 2);
AT(lapd_link, reserved, 3);
OCTETS(struct lapd_room, 16);
AT(struct lapd_room, pool, 0);
AT(struct lapd_room, queue, 4);
AT(struct lapd_room, va, 5);
AT(struct lapd_room, reserved, 6);
OCTETS(lapd_head, 8);
AT(lapd_head, length, 0);
AT(lapd_head, octets, 2);
AT(lapd_head, reserved, 6);
OCTETS(struct lapd_counters, 768);
AT(struct lapd_counters, values, 0);
AT(struct lapd_counters, reserved, 632);
OCTETS(struct lapd_link_counters, 32);
AT(struct lapd_link_counters, sent_again, 0);
AT(struct lapd_link_counters, t200_expired, 2);
AT(struct lapd_link_counters, rejects_sent, 4);
AT(struct lapd_link_counters, rejects_received, 6);
AT(struct lapd_link_counters, established, 8);
AT(struct lapd_link_counters, reserved, 10);
OCTETS(lapd_fields, 16);
AT(lapd_fields, kind, 0);
AT(lapd_fields, command, 1);
AT(lapd_fields, sapi, 2);
AT(lapd_fields, tei, 3);
AT(lapd_fields, bit, 4);
AT(lapd_fields, ns, 5);
AT(lapd_fields, nr, 6);
AT(lapd_fields, start, 7);
AT(lapd_fields, info, 8);
AT(lapd_fields, reserved, 10);
OCTETS(lapd_clock, 16);
AT(lapd_clock, started, 0);
AT(lapd_clock, at, 8);
OCTETS(lapd_due, 16);
AT(lapd_due, line, 0);
AT(lapd_due, timer, 4);
AT(lapd_due, reserved, 7);
/* tools/names: end */
