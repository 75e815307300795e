// settings.h: what the user says of the line, the tap and the ends. What is not given is not known.
#ifndef MONITOR_SETTINGS_H
#define MONITOR_SETTINGS_H

#include <array>

#include "terms.h"

namespace monitor {

enum class Tap : uint8_t { between, network, user };
enum class Readings : uint8_t { both, profile, annex_b };

struct Settings {
    Terms known;                   // but for k, what holds of both ends
    int k_network = 0, k_user = 0; // 0: not known
    Tap tap = Tap::between;
    Readings readings = Readings::both;
    bool goes_down = false;

    // Of the network's end, and the user's. What is tapped at an end is heard there, unless its link may be deactivated, as then
    // what it made of a frame may be given up.
    std::array<Terms, 2> terms() const {
        std::array<Terms, 2> both = {known, known};
        both[0].k = k_network > 0 ? k_network : 127;
        both[1].k = k_user > 0 ? k_user : 127;
        both[0].loses = tap != Tap::network || goes_down;
        both[1].loses = tap != Tap::user || goes_down;
        for (Terms &it : both) {
            it.goes_down = goes_down;
            it.reading = readings == Readings::annex_b ? Reading::annex_b : Reading::profile;
        }
        return both;
    }
};

} // namespace monitor

#endif
