/* restore.c: reads the saved state. It is read twice: first to see that its form is right to the end, and then to go on from it.
 * See state.h. */
#define _GNU_SOURCE

#include <errno.h>
#include <fcntl.h>
#include <stdlib.h>
#include <string.h>
#include <sys/mman.h>
#include <sys/stat.h>
#include <unistd.h>

#include "lines.h"
#include "log.h"
#include "loop.h"
#include "servers.h"
#include "state.h"

enum { GRACE_MS = 3000, LONGEST_AWAY_MS = 24 * 3600 * 1000, TAIL = 24, NUMBERS = 13 };

/* ---- What waits, links and lines; with NULL they are passed over ---------------------------------------------------------- */

static void get_queue(record_reader *from, queue *to) {
    for (uint32_t count = record_get32(from); count > 0 && !from->is_bad; count--) {
        uint32_t identifier = record_get32(from);
        size_t length = record_get16(from);
        const uint8_t *octets = record_get(from, length);
        if (to != NULL && octets != NULL)
            (void)queue_add(to, identifier, octets, length);
    }
}

static void get_link(record_reader *from, link_record *to) {
    uint32_t flags = record_get16(from);
    link_record it = {.service = record_get8(from)};
    it.tei = record_get8(from);
    it.reason = record_get8(from);
    it.again_ms = record_get32(from);
    it.again_at = record_get64(from);
    it.release_by = record_get64(from);
    it.is_used = (flags & 1) != 0 && it.tei < LAPD_GROUP_TEI && (it.service == LAPD_CALL || it.service == LAPD_PACKET);
    it.is_told_up = flags >> 1 & 1;
    it.is_told_down = flags >> 2 & 1;
    it.is_warned = flags >> 3 & 1;
    it.is_anew = flags >> 4 & 1;
    it.owes_establish = flags >> 5 & 1;
    it.owes_release = flags >> 6 & 1;
    it.is_busy = flags >> 7 & 1;
    it.is_wanted = flags >> 8 & 1;
    it.was_up = flags >> 9 & 1;
    get_queue(from, to == NULL ? NULL : &it.waiting);
    if (to != NULL) {
        queue_clear(&to->waiting);
        *to = it;
    }
}

static void get_line(record_reader *from, line *to, unsigned link_count) {
    uint8_t flags = record_get8(from);
    uint64_t ask_at = record_get64(from), teis[2] = {record_get64(from), record_get64(from)};
    size_t length = record_get16(from);
    const uint8_t *frame = record_get(from, length);
    if (to != NULL) {
        to->is_up = flags & 1;
        to->is_asking = flags >> 1 & 1;
        to->is_to_remove = flags >> 2 & 1;
        to->links.owes_teis = flags >> 3 & 1;
        to->links.is_unsettled = true;
        to->ask_at = ask_at;
        memcpy(to->links.told_teis, teis, sizeof teis);
    }
    if (to != NULL && frame != NULL && length <= sizeof to->out) {
        memcpy(to->out, frame, length);
        to->out_length = length;
    }
    for (unsigned i = 0; i < link_count && !from->is_bad; i++)
        get_link(from, to == NULL ? NULL : &to->links.at[i]);
}

void state_get_line(record_reader *from, line *to) {
    get_line(from, to, to->links.count);
}

/* ---- Groups --------------------------------------------------------------------------------------------------------------- */

/* The group of the present configuration that has this form, or NULL. */
static group *group_of(const uint8_t *form, size_t length) {
    group *found = NULL;
    for (unsigned i = 0; i < group_count && found == NULL; i++) {
        record it = {NULL, 0, 0, false};
        state_put_form(&it, &groups[i]->is);
        if (!it.is_bad && it.length == length && memcmp(it.octets, form, length) == 0)
            found = groups[i];
        record_free(&it);
    }
    return found;
}

/* The cards of a group: all of them are read, or none takes the place of the present ones. */
static bool get_cards(record_reader *from, group *to, uint32_t count) {
    lapd_card *read = to == NULL ? NULL : calloc(count, sizeof *read);
    bool is_good = read != NULL && count == to->card_count;
    for (uint32_t i = 0; i < count && !from->is_bad; i++) {
        size_t length = record_get32(from);
        const uint8_t *image = record_get(from, length);
        is_good = is_good && image != NULL && card_read(to->cards[i], image, length, &read[i]);
    }
    for (uint32_t i = 0; read != NULL && i < count; i++) {
        if (is_good)
            card_replace(to->cards[i], &read[i]);
        else
            (void)!lapd_card_free(&read[i]);
    }
    free(read);
    return is_good;
}

static void get_group(record_reader *from, bool applies) {
    size_t length = NAME_ROOM + 8 + 2 * NUMBERS + 16;
    const uint8_t *form = record_get(from, length);
    record_reader numbers = {form == NULL ? NULL : form + NAME_ROOM + 4, 4, form == NULL};
    uint32_t lines_of_it = record_get32(&numbers), terminals = record_get16(from), cards = record_get32(from);
    group *to = applies && form != NULL ? group_of(form, length) : NULL;
    if (lines_of_it > MOST_LINES || terminals > LAPD_GROUP_TEI || cards > MOST_LINES)
        from->is_bad = true;
    if (from->is_bad)
        return;
    bool is_good = get_cards(from, to, cards);
    for (uint32_t i = 0; i < lines_of_it && !from->is_bad; i++)
        get_line(from, is_good ? &to->lines[i] : NULL, 2 * terminals);
    if (is_good)
        to->is_restored = true;
    else if (applies)
        log_line(LOG_WARN, "saved lines `%.*s` are others than the present ones, and begin anew", NAME_ROOM - 1,
                 (const char *)form);
}

/* ---- Servers -------------------------------------------------------------------------------------------------------------- */

static server *server_named(const uint8_t *name) {
    for (unsigned i = 0; i < server_count; i++)
        if (memcmp(servers[i]->is.name, name, NAME_ROOM) == 0)
            return servers[i];
    return NULL;
}

static void get_server(record_reader *from, bool applies) {
    const uint8_t *name = record_get(from, NAME_ROOM);
    uint8_t state = record_get8(from);
    server *to = applies && name != NULL ? server_named(name) : NULL;
    get_queue(from, to == NULL ? NULL : &to->held);
    if (to != NULL)
        to->has_served = state >= IUA_SERVER_ACTIVE || to->held.first != NULL;
}

/* ---- The file ---------------------------------------------------------------------------------------------------------------
 * */

bool state_get(record_reader *from, bool applies) {
    const uint8_t *mark = record_get(from, sizeof STATE_MARK);
    if (mark == NULL || memcmp(mark, STATE_MARK, sizeof STATE_MARK) != 0)
        return false;
    for (uint32_t count = record_get32(from); count > 0 && !from->is_bad; count--)
        get_group(from, applies);
    for (uint32_t count = record_get32(from); count > 0 && !from->is_bad; count--)
        get_server(from, applies);
    return !from->is_bad;
}

static bool get_all(const uint8_t *octets, size_t length, bool applies) {
    record_reader from = {octets, length, false};
    return state_get(&from, applies) && from.left == 0;
}

/* Layer 1 of a line counts as there for a while, and a server that had a process waits for the next one, for T(r) as before. */
static void wait_for_all(void) {
    for (unsigned i = 0; i < line_count; i++)
        if (lines[i]->of->is_restored && lines[i]->is_up) {
            lines[i]->grace = loop_now() + GRACE_MS;
            line_wake(lines[i], lines[i]->grace);
        }
    for (unsigned i = 0; i < server_count; i++)
        if (servers[i]->has_served)
            server_wait(servers[i]);
}

void state_go_on(void) {
    for (unsigned i = 0; i < line_count; i++) {
        line *it = lines[i];
        it->out_length = 0; /* the other process may have sent it */
        if (it->is_up && it->adopted < 0) {
            it->grace = loop_now() + GRACE_MS;
            line_wake(it, it->grace);
        }
        card_advance(it->card);
    }
    for (unsigned i = 0; i < server_count; i++)
        server_wait(servers[i]);
}

/* The time goes on from the moment of the save, and how long the program was away since. */
static void set_time(uint64_t moment, uint64_t saved_at) {
    uint64_t now = state_real_time(), away = now > saved_at ? now - saved_at : 0;
    loop_set_now(moment + (away < LONGEST_AWAY_MS ? away : LONGEST_AWAY_MS));
}

static bool restore(const uint8_t *octets, size_t length) {
    record_reader tail = {octets + length - TAIL, TAIL, false};
    uint64_t moment = record_get64(&tail), saved_at = record_get64(&tail), check = record_get64(&tail);
    if (check != record_check(octets, length - 8) || moment >= LAPD_LATEST / 2 || !get_all(octets, length - TAIL, false))
        return false;
    set_time(moment, saved_at);
    bool is_good = get_all(octets, length - TAIL, true);
    wait_for_all();
    return is_good;
}

void state_restore(const char *path) {
    struct stat about = {.st_size = 0};
    int fd = open(path, O_RDONLY | O_CLOEXEC);
    if (fd < 0) {
        if (errno != ENOENT)
            log_line(LOG_WARN, "the state can't be read, and lines begin anew: %s: %s", path, strerror(errno));
        return;
    }
    size_t length = fstat(fd, &about) == 0 && about.st_size > TAIL ? (size_t)about.st_size : 0;
    void *at = length == 0 ? MAP_FAILED : mmap(NULL, length, PROT_READ, MAP_PRIVATE, fd, 0);
    close(fd);
    if (at != MAP_FAILED && restore(at, length))
        log_line(LOG_EVENT, "lines go on from the saved state");
    else
        log_line(LOG_WARN, "the state is damaged, and lines begin anew: %s", path);
    if (at != MAP_FAILED)
        munmap(at, length);
    unlink(path);
}
