// terms.h: what is known of an end, and of the tap.
#ifndef MONITOR_TERMS_H
#define MONITOR_TERMS_H

#include <cstddef>

#include "frame.h"

namespace monitor {

enum class Reading : uint8_t { profile, annex_b };

struct Terms {
    Reading reading = Reading::profile;
    int k = 127;              // of the window; 127 if it is not known
    int n200 = -1;            // -1: not known
    int n201 = 260;
    Time t200 = 0, t203 = 0;  // 0: not known
    double tolerance = 0.02;  // so much of its length a timer may be off
    Time delay = 1500 * MILLISECOND; // from the tap of a frame toward the end to the tap of what it makes the end send, at most
    Time wait = 300 * MILLISECOND;   // from the making of a frame to its tap, at most
    bool loses = true;        // frames toward the end may be lost after the tap
    bool goes_down = false;   // its link may be deactivated at any time, unseen
    size_t most = 20000;      // states that are told apart, at most

    // The shortest and the longest that a timer runs.
    Time least(Time length) const { return static_cast<Time>(static_cast<double>(length) * (1 - tolerance)) - MILLISECOND; }
    Time longest(Time length) const { return static_cast<Time>(static_cast<double>(length) * (1 + tolerance)) + MILLISECOND; }
};

} // namespace monitor

#endif
