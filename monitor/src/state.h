// state.h: what an end of a link may be in, as far as an observer can tell.
#ifndef MONITOR_STATE_H
#define MONITOR_STATE_H

#include <array>
#include <string>

#include "frame.h"

namespace monitor {

// A number that is not known: one of V(S), V(A), V(R) or RC.
constexpr uint8_t UNKNOWN = 255;
// Of RC no more is told apart.
constexpr uint8_t MOST_RC = 30;

constexpr uint8_t after(uint8_t number) { return number == UNKNOWN ? UNKNOWN : static_cast<uint8_t>((number + 1) & 127); }
constexpr int distance(uint8_t to, uint8_t from) { return (to - from) & 127; }

enum class Timer : uint8_t { none, t200, t203 };

// The state of docs/MACHINE.md, "What a link holds", less what no frame shows. Of what was made and not sent yet there is one
// frame at most, since control frames are sent in the order in which they are made: what is heard counts as heard as late as
// what it makes is sent. The exception is a SABME that follows an answer to the same frame.
struct State {
    uint8_t state = 4;                      // 4 to 8, by annex B
    uint8_t vs = 0, va = 0, vr = 0;         // 0 to 127, or UNKNOWN
    bool peer_busy = false, own_busy = false, rejecting = false, pending = false;
    bool sabme_waits = false;
    bool owed = false;                      // by annex B: layer 3 released in state 5, and UA leads to DISC at once
    uint8_t rc = 0;                         // 0 to MOST_RC, or UNKNOWN
    Timer timer = Timer::none;
    uint32_t heard = 0;                     // so many frames toward this end came there, or are lost

    bool is_up() const { return state >= 7; }

    // Two states with one key are the same, as long as not more than 2^24 frames are in transit.
    uint64_t key() const {
        uint64_t flags = static_cast<uint64_t>(peer_busy) | static_cast<uint64_t>(own_busy) << 1
            | static_cast<uint64_t>(rejecting) << 2 | static_cast<uint64_t>(pending) << 3 | static_cast<uint64_t>(sabme_waits) << 4;
        return static_cast<uint64_t>(state - 4) | static_cast<uint64_t>(vs) << 3 | static_cast<uint64_t>(va) << 11
            | static_cast<uint64_t>(vr) << 19 | flags << 27 | static_cast<uint64_t>(rc & 31) << 32
            | static_cast<uint64_t>(timer) << 37 | static_cast<uint64_t>(heard & 0xFFFFFF) << 39
            | static_cast<uint64_t>(owed) << 63;
    }
};

// Frames toward an end, by what their loss leads to.
enum class Toward : uint8_t { information, polls, unnumbered, others };
constexpr int TOWARDS = 4;
Toward toward(const Frame &frame);

// How a state is reached: by the fewest losses, and within which times. Of equal states the fewest losses and the widest times
// hold, so no way to the state is forgotten.
struct Evidence {
    int losses = 0;
    std::array<uint32_t, TOWARDS> lost{};
    Time started_from = LONG_AGO, started_to = NEVER; // when its timer was started
    Time due_by = NEVER; // when a pending acknowledgement, or a SABME that waits, is sent at the latest

    // Takes in another way to the same state. True: the evidence is another than before.
    bool widen(const Evidence &other);
    // It explains all that the other does, by no more losses.
    bool covers(const Evidence &other) const {
        return losses <= other.losses && started_from <= other.started_from && started_to >= other.started_to
            && due_by >= other.due_by;
    }
};

struct Possible {
    State s;
    Evidence e;
};

// As in "[state 7 V(S) 3 V(A) 1 V(R) 0 peer busy, T200, 2 unheard]", if so many frames toward it were tapped.
std::string in_words(const Possible &it, uint32_t tapped);

} // namespace monitor

#endif
