// set.cc: see set.h.
#include "set.h"

#include <algorithm>

namespace monitor {

namespace {

constexpr size_t FEWEST_SLOTS = 64;
constexpr unsigned NUMBERS = 4, OF_RC = 8;

uint8_t *number_of(State &it, unsigned which) { return which == 0 ? &it.vs : which == 1 ? &it.va : which == 2 ? &it.vr : &it.rc; }

// A bit for each number that is not known.
unsigned pattern_of(State it) {
    unsigned pattern = 0;
    for (unsigned which = 0; which < NUMBERS; which++)
        pattern |= *number_of(it, which) == UNKNOWN ? 1u << which : 0u;
    return pattern;
}

State without(State it, unsigned pattern) {
    for (unsigned which = 0; which < NUMBERS; which++)
        if ((pattern >> which & 1) != 0)
            *number_of(it, which) = UNKNOWN;
    return it;
}

} // namespace

size_t Set::slot_of(uint64_t key) const {
    uint64_t mixed = key * 0x9E3779B97F4A7C15u;
    size_t mask = slots.size() - 1, slot = static_cast<size_t>(mixed >> 32) & mask;
    while (slots[slot] != 0 && keys[slots[slot] - 1] != key)
        slot = (slot + 1) & mask;
    return slot;
}

void Set::grow() {
    slots.assign(std::max(FEWEST_SLOTS, 2 * slots.size()), 0);
    for (size_t place = 0; place < keys.size(); place++)
        slots[slot_of(keys[place])] = static_cast<uint32_t>(place + 1);
}

Set::Added Set::add(const Possible &it, size_t *place) {
    if (2 * (all.size() + 1) > slots.size())
        grow();
    uint64_t key = it.s.key();
    size_t slot = slot_of(key);
    if (slots[slot] != 0) {
        size_t there = slots[slot] - 1;
        if (place != nullptr)
            *place = there;
        return all[there].e.widen(it.e) ? Added::wider : Added::none;
    }
    all.push_back(it);
    keys.push_back(key);
    slots[slot] = static_cast<uint32_t>(all.size());
    if (place != nullptr)
        *place = all.size() - 1;
    return Added::anew;
}

void Set::clear() {
    if (slots.size() > 16 * FEWEST_SLOTS && 16 * all.size() < slots.size())
        slots.resize(FEWEST_SLOTS);
    std::fill(slots.begin(), slots.end(), 0);
    all.clear();
    keys.clear();
}

void Set::swap(Set &other) {
    all.swap(other.all);
    keys.swap(other.keys);
    slots.swap(other.slots);
}

const Possible &Set::likeliest() const {
    return *std::min_element(all.begin(), all.end(), [](const Possible &a, const Possible &b) { return a.e.losses < b.e.losses; });
}

void Set::forget_losses() {
    for (Possible &it : all) {
        it.e.losses = 0;
        it.e.lost = {};
    }
}

// The patterns of unknown numbers that there are, a bit for each.
unsigned Set::unknown_numbers() const {
    unsigned patterns = 0;
    for (const Possible &it : all)
        patterns |= 1u << pattern_of(it.s);
    return patterns;
}

bool Set::is_covered(const Possible &it, unsigned patterns) const {
    for (unsigned pattern = 1; pattern < 1u << NUMBERS; pattern++) {
        if ((patterns >> pattern & 1) == 0)
            continue;
        uint64_t key = without(it.s, pattern).key();
        uint32_t slot = slots[slot_of(key)];
        if (key != it.s.key() && slot != 0 && all[slot - 1].e.covers(it.e))
            return true;
    }
    return false;
}

void Set::leave_widest() {
    const unsigned patterns = unknown_numbers();
    if ((patterns & ~(1u | 1u << OF_RC)) == 0) // a state of which RC is not known has no other of which it is
        return;
    std::vector<Possible> kept;
    for (const Possible &it : all)
        if (!is_covered(it, patterns))
            kept.push_back(it);
    clear();
    for (const Possible &it : kept)
        add(it);
}

} // namespace monitor
