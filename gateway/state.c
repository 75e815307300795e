/* state.c: the saved state. See state.h. */
#define _GNU_SOURCE

#include "state.h"

#include <errno.h>
#include <fcntl.h>
#include <stdio.h>
#include <string.h>
#include <time.h>
#include <unistd.h>

#include "lines.h"
#include "log.h"
#include "loop.h"
#include "record.h"
#include "servers.h"

uint64_t state_real_time(void) {
    struct timespec time;
    clock_gettime(CLOCK_REALTIME, &time);
    return (uint64_t)time.tv_sec * 1000 + (uint64_t)time.tv_nsec / 1000000;
}

/* ---- Written ------------------------------------------------------------------------------------------------------------ */

static void put_queue(record *to, const queue *from) {
    record_put32(to, from->count);
    for (const queued *it = from->first; it != NULL; it = it->next) {
        record_put32(to, it->identifier);
        record_put16(to, (uint32_t)it->length);
        record_put(to, it->octets, it->length);
    }
}

static uint32_t flags_of(const link_record *it) {
    return (uint32_t)it->is_used | (uint32_t)it->is_told_up << 1 | (uint32_t)it->is_told_down << 2 | (uint32_t)it->is_warned << 3
           | (uint32_t)it->is_anew << 4 | (uint32_t)it->owes_establish << 5 | (uint32_t)it->owes_release << 6
           | (uint32_t)it->is_busy << 7 | (uint32_t)it->is_wanted << 8 | (uint32_t)it->was_up << 9;
}

static void put_link(record *to, const link_record *it) {
    record_put16(to, flags_of(it));
    record_put8(to, it->service);
    record_put8(to, it->tei);
    record_put8(to, it->reason);
    record_put32(to, it->again_ms);
    record_put64(to, it->again_at);
    record_put64(to, it->release_by);
    put_queue(to, &it->waiting);
}

void state_put_line(record *to, const line *it) {
    record_put8(to, (uint32_t)it->is_up | (uint32_t)it->is_asking << 1 | (uint32_t)it->is_to_remove << 2
                        | (uint32_t)it->links.owes_teis << 3);
    record_put64(to, it->ask_at);
    record_put64(to, it->links.told_teis[0]);
    record_put64(to, it->links.told_teis[1]);
    record_put16(to, (uint32_t)it->out_length);
    record_put(to, it->out, it->out_length);
    for (unsigned i = 0; i < it->links.count; i++)
        put_link(to, &it->links.at[i]);
}

static void put_image(record *to, card *it) {
    size_t length = 0, room = lapd_image_octets(&it->config);
    uint8_t *at = record_room(to, 4 + room);
    if (at == NULL || lapd_card_save(&it->own, at + 4, room, &length) != LAPD_OK) {
        to->is_bad = true;
        return;
    }
    record_put32(to, (uint32_t)length);
    record_add(to, length);
}

void state_put_form(record *to, const configuration_group *it) {
    const uint16_t numbers[] = {it->config.lines, it->config.terminals, it->config.k, it->config.k16, it->config.queue,
                                it->config.unit_queue, it->config.control, it->config.slots, it->config.n201, it->config.n200,
                                it->config.side, it->config.sapi, it->config.reading};
    record_put(to, it->name, sizeof it->name);
    record_put32(to, it->first);
    record_put32(to, it->count);
    for (unsigned i = 0; i < sizeof numbers / sizeof *numbers; i++)
        record_put16(to, numbers[i]);
    record_put32(to, it->lengths.t200);
    record_put32(to, it->lengths.t201);
    record_put32(to, it->lengths.t202);
    record_put32(to, it->lengths.t203);
}

static void put_group(record *to, const group *it) {
    state_put_form(to, &it->is);
    record_put16(to, it->is.terminals);
    record_put32(to, it->card_count);
    for (unsigned i = 0; i < it->card_count; i++) {
        card_advance(it->cards[i]);
        put_image(to, it->cards[i]);
    }
    for (uint32_t i = 0; i < it->is.count; i++)
        state_put_line(to, &it->lines[i]);
}

void state_put(record *to) {
    record_put(to, STATE_MARK, sizeof STATE_MARK);
    record_put32(to, group_count);
    for (unsigned i = 0; i < group_count; i++)
        put_group(to, groups[i]);
    record_put32(to, server_count);
    for (unsigned i = 0; i < server_count; i++) {
        record_put(to, servers[i]->is.name, sizeof servers[i]->is.name);
        record_put8(to, servers[i]->state);
        put_queue(to, &servers[i]->held);
    }
}

/* What follows in a file: the moment, the time of the day, and the check. */
static void put_end(record *to) {
    record_put64(to, loop_now());
    record_put64(to, state_real_time());
    record_put64(to, record_check(to->octets, to->length));
}

static bool write_whole(int fd, const record *from) {
    for (size_t at = 0; at < from->length;) {
        ssize_t written = write(fd, from->octets + at, from->length - at);
        if (written < 0 && errno != EINTR)
            return false;
        at += written > 0 ? (size_t)written : 0;
    }
    return fsync(fd) == 0;
}

bool state_save(const char *path) {
    record all = {NULL, 0, 0, false};
    char name[PATH_ROOM + 8];
    snprintf(name, sizeof name, "%s.new", path);
    state_put(&all);
    put_end(&all);
    errno = ENOMEM;
    int fd = all.is_bad ? -1 : open(name, O_WRONLY | O_CREAT | O_TRUNC | O_CLOEXEC, 0600);
    bool is_written = fd >= 0 && write_whole(fd, &all);
    if (fd >= 0 && close(fd) != 0)
        is_written = false;
    is_written = is_written && rename(name, path) == 0;
    if (!is_written)
        log_line(LOG_FAULT, "the state is not saved: %s: %s", name, strerror(errno));
    record_free(&all);
    return is_written;
}
