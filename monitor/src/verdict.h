// verdict.h: what is said of a frame, or of what did not come.
#ifndef MONITOR_VERDICT_H
#define MONITOR_VERDICT_H

#include <string>
#include <vector>

#include "frame.h"

namespace monitor {

// Never mixed. `began_anew`: the link was deactivated, or its end started anew, and the tap did not see it. `departure`: no run
// of the tables sends the frame. `fell_silent`: what is due is not sent. `cannot_judge`: too many states are possible.
// `unlikely`: no single frame departs, but all explanations together are less than chance. `doubled`: two terminals have one TEI.
enum class What : uint8_t { began_anew, departure, fell_silent, cannot_judge, unlikely, doubled };
constexpr int WHATS = 6;

struct Verdict {
    What what;
    std::string why;      // of a departure the rows that would send it, each with its guards
    std::string possible; // the states that were possible, the likeliest first
    bool is_missed = false; // it would be explained if the tap had missed one frame
};
using Verdicts = std::vector<Verdict>;

const char *name_of(What what);

} // namespace monitor

#endif
