// cards.cc: see cards.h.
#include "cards.h"

#include <cstdio>
#include <cstdlib>
#include <cstring>

namespace {

// Where an image has its link, if the card has one line and one TEI, and no procedure of TEI management runs (docs/FORMAT.md).
constexpr size_t LINK = 27, COUNTED = 7, COUNTERS = 10, CONTENTS = COUNTED + COUNTERS;
constexpr uint8_t STATE = 63, OWED = 64, PEER_BUSY = 1, OWN_BUSY = 2, REJECTING = 4, PENDING = 8, RUNS_T200 = 32, RUNS_T203 = 64;
const uint8_t DATA[1] = {'x'};

void want(bool is_so, const char *what, uint32_t status) {
    if (is_so)
        return;
    std::fprintf(stderr, "rows: %s: %s\n", what, lapd_status_text(status));
    std::exit(2);
}

size_t after_contents(const Image &image) {
    size_t at = LINK + CONTENTS, count = image[at++];
    for (; count > 0; count--)
        at += size_t{2} + image[at] + size_t{256} * image[at + 1];
    return at;
}

// Nothing but what decides over later frames: no counters.
void leave_out_counters(Image &image) {
    std::fill_n(image.begin() + LINK + COUNTED, COUNTERS, uint8_t{0});
    constexpr size_t LINE_COUNTERS = 632, WAITING = 2;
    std::fill(image.end() - (LINE_COUNTERS + WAITING), image.end(), uint8_t{0});
}

} // namespace

const Unseen RELEASED = {"release request", 0, LAPD_RELEASE};
const std::vector<Unseen> UNSEEN = {
    {"T200 expires", LAPD_T200, 0},       {"T203 expires", LAPD_T203, 0}, {"establish request", 0, LAPD_ESTABLISH},
    {"data request", 0, LAPD_DATA},       {"set busy", 0, LAPD_BUSY},     {"clear busy", 0, LAPD_READY},
    RELEASED,
};
const Unseen DEACTIVATED = {"the line is down", 0, LAPD_DEACTIVATE};

Card::Card(const lapd_config &config) {
    uint32_t status = lapd_card_start_frames(&card, &config);
    want(status == LAPD_OK, "start", status);
    status = lapd_assign(&card, 0, 0, &report);
    want(status == LAPD_OK, "assign", status);
}

Card::Card(const Image &image) {
    uint32_t status = lapd_card_restore(&card, image.data(), image.size());
    want(status == LAPD_OK, "restore", status);
}

Card::~Card() { (void)!lapd_card_free(&card); }

void Card::hears(const Octets &frame) {
    uint32_t status = lapd_frame(&card, 0, frame.data(), frame.size(), &report);
    want(status == LAPD_OK, "frame", status);
}

// What the state does not serve is refused, and changes nothing.
void Card::happens(const Unseen &it) {
    lapd_timer timer = {it.timer, LAPD_CALL, 0};
    if (it.timer != 0)
        want(lapd_expire(&card, 0, &timer, &report) == LAPD_OK, "expire", LAPD_OK);
    else
        (void)!lapd_request(&card, 0, it.request, LAPD_CALL, 0, DATA, it.request == LAPD_DATA ? sizeof DATA : 0, &report);
}

bool Card::next(Octets &frame) {
    uint8_t octets[LAPD_MOST_FRAME];
    size_t length = 0;
    uint32_t status = lapd_next_frame(&card, 0, octets, sizeof octets, &length, &report);
    frame.assign(octets, octets + (status == LAPD_OK ? length : 0));
    return status == LAPD_OK;
}

Image Card::image() {
    static uint8_t octets[65536];
    size_t length = 0;
    uint32_t status = lapd_card_save(&card, octets, sizeof octets, &length);
    want(status == LAPD_OK, "save", status);
    Image it(octets, octets + length);
    leave_out_counters(it);
    return it;
}

monitor::State state_of(const Image &image) {
    const uint8_t *link = image.data() + LINK, flags = link[1];
    monitor::State it;
    it.state = link[0] & STATE;
    it.owed = (link[0] & OWED) != 0;
    it.rc = it.state == 5 || it.state == 6 || it.state == 8 ? link[2] : uint8_t{0};
    if ((flags & (RUNS_T200 | RUNS_T203)) != 0)
        it.timer = (flags & RUNS_T200) != 0 ? monitor::Timer::t200 : monitor::Timer::t203;
    if (it.state <= 6)
        return it;
    it.va = link[3];
    it.vs = static_cast<uint8_t>((link[3] + link[4]) & 127);
    it.vr = link[5];
    it.peer_busy = (flags & PEER_BUSY) != 0;
    it.own_busy = (flags & OWN_BUSY) != 0;
    it.rejecting = (flags & REJECTING) != 0;
    it.pending = (flags & PENDING) != 0;
    return it;
}

bool has_control(const Image &image) { return image[after_contents(image)] > 0; }

bool sends_again(const Image &image) { return image[LINK + 6] > 0; }

namespace {

// The next frame of a card in which no control frame waits, after each unseen event or none.
void answers_of(const Image &from, std::map<Octets, std::set<Image>> &found) {
    Octets first, frame;
    Card quiet(from);
    if (quiet.next(first))
        found[first].insert(quiet.image());
    if (has_control(from))
        return;
    for (const Unseen &it : UNSEEN) {
        Card card(from);
        card.happens(it);
        if (it.request == LAPD_DATA ? sends_again(from) : !has_control(card.image()))
            continue;
        // Data that can't be sent at once waits, and is sent as if it came later.
        if (card.next(frame) && frame != first && (it.request != LAPD_DATA || (frame[2] & 1) == 0))
            found[frame].insert(card.image());
    }
}

} // namespace

// Adds what is reached by unseen events that send nothing.
void Cards::close(std::set<Image> &all) const {
    std::vector<Image> todo(all.begin(), all.end());
    while (!todo.empty()) {
        Image from = todo.back();
        todo.pop_back();
        std::vector<Unseen> events = has_control(from) ? std::vector<Unseen>() : UNSEEN;
        if (ways.goes_down)
            events.push_back(DEACTIVATED);
        for (const Unseen &it : events) {
            Card card(from);
            card.happens(it);
            Image after = card.image();
            if (it.request != LAPD_DATA && !has_control(after) && all.insert(after).second)
                todo.push_back(after);
        }
    }
}

std::map<Octets, std::set<Image>> Cards::answers_of_all(std::set<Image> from) const {
    std::map<Octets, std::set<Image>> found;
    close(from);
    for (const Image &it : from)
        answers_of(it, found);
    return found;
}

std::set<Image> Cards::after_hearing(std::set<Image> from) const {
    std::set<Image> after;
    close(from);
    for (const Image &it : from) {
        Card card(it);
        card.hears(transit);
        after.insert(card.image());
    }
    return after;
}

void Cards::hears(const Octets &frame) {
    unheard = there;
    transit = frame;
    there = after_hearing(unheard);
}

std::map<Octets, Answer> Cards::answers() const {
    std::map<Octets, Answer> found;
    for (auto &[frame, after] : answers_of_all(unheard))
        found[frame].unheard = after;
    for (auto &[frame, after] : answers_of_all(there))
        found[frame].heard = after;
    return found;
}

void Cards::sent(const Answer &answer) {
    unheard = answer.unheard;
    there = answer.heard;
    if (!unheard.empty())
        for (const Image &it : after_hearing(unheard))
            there.insert(it);
}

void Cards::settle() {
    std::set<Image> left;
    if (ways.loses)
        there.insert(unheard.begin(), unheard.end());
    unheard.clear();
    close(there);
    for (const Image &it : there)
        if (!has_control(it) && !state_of(it).pending)
            left.insert(it);
    there.swap(left);
}
