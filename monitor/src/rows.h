// rows.h: the tables of a data link (docs/MACHINE.md), over states of which not all is known.
//
// A row answers with outcomes. There is more than one if it depends on a number that is not known; then each says which it was.
// What only layer 3 sees, as an indication, is left out.
#ifndef MONITOR_ROWS_H
#define MONITOR_ROWS_H

#include "state.h"
#include "terms.h"

namespace monitor {

// A frame toward an end, as it was tapped.
struct Tapped {
    Frame frame;
    Time at = 0;
    bool is_damaged = false; // at the tap: whether it is good at the end is not known
};

// Why a row does not send a frame, though it almost would. The first are what its own condition says, the others how the frame
// differs from what it sends.
enum Guard : unsigned {
    TIMER_RUNS = 1, REPEATED_ENOUGH = 2, WINDOW_FULL = 4, PEER_BUSY = 8, GOES_BACK = 16, IN_RECOVERY = 32, BUSY_ALREADY = 64,
    NO_CAUSE = 128, REJECTING_ALREADY = 256, OTHER_PF = 512, OTHER_NR = 1024, OTHER_FRAME = 2048, OTHER_CR = 4096
};
constexpr int GUARDS = 13;
constexpr int MOST_WEIGHT = 4; // of guards, if a row is to be named

// How far from the row a frame is: the sum of its guards' weights.
int weight(unsigned guards);
// As in "N200, P/F bit".
std::string in_words_of(unsigned guards);

struct Outcome {
    Possible after;
    const char *row;       // as "state 7: T200"
    unsigned guards = 0;   // 0: the row holds
    bool sends = false;
    Frame frame;           // what it sends; N(R) is UNKNOWN if V(R) is not known
    bool is_started = false; // the timer of `after` was started by it
    bool is_expiry = false;  // a timer expired
};
using Outcomes = std::vector<Outcome>;

class Rows {
  public:
    explicit Rows(const Terms &its_terms) : terms(its_terms) {}

    // What comes of a frame that the end hears next. With `near` also outcomes that have guards.
    void heard(const Possible &it, const Tapped &tapped, bool near, Outcomes &out) const;
    // What the end does by itself that sends a frame of this kind: requests, expiries, and what its queues have.
    void own(const Possible &it, const Frame &sent, Time now, bool near, Outcomes &out) const;
    // T200 ends an establishment or a release, and nothing is sent. False: it can't have.
    bool gives_up(const Possible &it, Time now, Outcome &out) const;
    // Layer 3 asks in state 5, by annex B, and nothing is sent: a release is owed, or owed no more. False: it is refused.
    bool asks_in_5(const Possible &it, Outcome &out) const;

    // The timer that runs may have expired by now.
    bool is_due(const Possible &it, Time now) const;

  private:
    void unit(const Possible &it, const Frame &frame, Outcomes &out) const;
    void state_4(const Possible &it, const Frame &frame, Outcomes &out) const;
    void state_5(const Possible &it, const Frame &frame, Outcomes &out) const;
    void state_6(const Possible &it, const Frame &frame, Outcomes &out) const;
    void states_7_and_8(const Possible &it, const Tapped &tapped, bool near, Outcomes &out) const;
    void information(const Possible &it, const Tapped &tapped, bool near, Outcomes &out) const;
    void supervisory(const Possible &it, const Frame &frame, Outcomes &out) const;
    void number(const Outcome &judged, const Frame &frame, Outcomes &out) const;

    void expiry_before_up(const Possible &it, const Frame &sent, Time now, Outcomes &out) const;
    void requests(const Possible &it, const Frame &sent, Outcomes &out) const;
    void enquiry(const Possible &it, Time now, Outcomes &out) const;
    void next_information(const Possible &it, const Frame &sent, Outcomes &out) const;
    void without_cause(const Possible &it, const Frame &sent, Outcomes &out) const;

    unsigned too_often(const State &s) const;
    uint8_t once_more(const State &s) const;
    uint8_t none_repeated(const State &s) const;
    uint8_t repeated_by_first(const State &s) const;

    const Terms &terms;
};

} // namespace monitor

#endif
