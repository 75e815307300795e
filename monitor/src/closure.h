// closure.h: what a tap does not see. Between two frames of an end it may have heard frames, or they were lost; its timers may
// have expired without a frame, and its link may have been deactivated.
#ifndef MONITOR_CLOSURE_H
#define MONITOR_CLOSURE_H

#include <deque>

#include "rows.h"
#include "set.h"

namespace monitor {

// The frames toward an end that it may not have heard yet, numbered from the first of all.
class Transit {
  public:
    void push(const Tapped &it) { frames.push_back(it); }
    uint32_t first() const { return base; }
    uint32_t tapped() const { return base + static_cast<uint32_t>(frames.size()); }
    const Tapped &operator[](uint32_t number) const { return frames[number - base]; }
    // Frames below this number are heard or lost for certain.
    void forget_below(uint32_t number) {
        for (; base < number && !frames.empty(); base++)
            frames.pop_front();
    }

  private:
    std::deque<Tapped> frames;
    uint32_t base = 0;
};

// A link that begins anew unseen is like so many losses: what needs it is the less likely way.
constexpr int LOSSES_OF_RESET = 5;

class Closure {
  public:
    Closure(const Terms &its_terms, const Transit &its_transit) : terms(its_terms), transit(its_transit), rows(its_terms) {}

    // Adds each state that may be reached unseen. False: there are more than are told apart.
    bool close(Set &set, Time now, bool goes_down);

    // What the states of a closed set may send that is a frame of this kind. `each` gets the outcome, whether the end does it by
    // itself, and the state before.
    template <class Each> void sending(const Set &set, const Frame &sent, Time now, bool near, Each each) {
        for (const Possible &it : set) {
            outcomes.clear();
            rows.own(it, sent, now, near, outcomes);
            for (Outcome &outcome : outcomes)
                each(timed(outcome, now - terms.wait, now), true, it);
            if (it.s.sabme_waits || it.s.heard >= transit.tapped() || transit[it.s.heard].is_damaged)
                continue;
            outcomes.clear();
            rows.heard(it, transit[it.s.heard], near, outcomes);
            for (Outcome &outcome : outcomes)
                if (outcome.sends)
                    each(timed(outcome, transit[it.s.heard].at, now), false, it);
        }
    }

    // With when its timer was started, if it was, and without times that mean nothing.
    static Outcome &timed(Outcome &outcome, Time from, Time to);

  private:
    void add(Set &set, const Possible &it);
    void unheard(Set &set, const Possible &it, Time now);

    const Terms &terms;
    const Transit &transit;
    Rows rows;
    Outcomes outcomes;
    std::vector<size_t> again; // states that were looked at, and of which more is known since
    size_t looked_at = 0;
};

} // namespace monitor

#endif
