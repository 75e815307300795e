// watch.h: one end of a link, by one reading: the set of states that it may be in, and what each frame says of it.
#ifndef MONITOR_WATCH_H
#define MONITOR_WATCH_H

#include "closure.h"
#include "estimates.h"
#include "verdict.h"

namespace monitor {

class Watch {
  public:
    // Nothing is known of the end; or it is in state 4, and nothing is in transit.
    Watch(const Terms &its_terms, bool is_fresh);

    // A frame toward the end was tapped.
    void hears(const Tapped &it, Verdicts &told);
    // A frame of the end was tapped.
    void sends(const Frame &frame, Time now, Verdicts &told);
    // The capture ends.
    void ends();
    // Whether some run of the tables has the end send this frame now; and in which states it may be. Nothing changes.
    bool may_send(const Frame &frame, Time now) const;
    std::vector<State> states_closed(Time now) const;

    void read_by(Reading reading) { terms.reading = reading; }
    const Terms &known() const { return terms; }
    const Estimates &estimates() const { return found; }
    // Frames toward the end are numbered: the first that may still come, and how many were tapped.
    uint32_t first_in_transit() const { return transit.first(); }
    uint32_t tapped() const { return transit.tapped(); }
    size_t most_states() const { return largest; }
    // Of two watches that agree nothing that comes later tells one from the other, except what the readings say.
    bool agrees(const Watch &other) const;

  private:
    // A row that would send the frame but for its guards.
    struct Near {
        unsigned guards;
        Possible after;
        const char *row;
    };

    uint32_t first_timely(Time now, size_t most) const;
    void forget_all(Time now);
    void begin_judging(Time now);
    void judge_overdue(Time now, Verdicts &told);
    bool leave_timely(Time now);
    bool is_overdue(const Possible &it, Time now) const;
    Time next_deadline() const;
    void fall_silent(Time now, Verdicts &told);

    bool explain(const Frame &frame, Time now, bool goes_down, Set &next);
    void estimate(const Frame &frame, Time now);
    std::vector<Near> nearest(const Set &closed, const Frame &frame, Time now);
    void depart(const Frame &frame, Time now, Set &next, Verdicts &told);
    bool would_be_explained(const Frame &frame, Time now, Set &next);
    void send_missed(const Possible &it, Time now, Set &unseen);
    void hear_missed(const Possible &it, const Frame &frame, Time now, Set &next, Set &unseen);
    void take(Set &next);
    void cannot_judge(Time now, Verdicts &told);
    std::string possible() const;

    Terms terms;
    Transit transit;
    Set set, scratch, following;
    Estimates found;
    size_t largest = 0;
    Time began = LONG_AGO;   // the first frame of all
    bool is_judging = false; // what was in transit at the beginning has come
    bool is_silent = false;  // what was due was not sent: the next frame tells why
    Time deadline = LONG_AGO; // nothing is overdue before
};

// What a frame lacks of what a row sends. If N(R) could not be told, V(R) of the state is set by it.
unsigned differences(const Frame &made, const Frame &seen, Possible &after);

} // namespace monitor

#endif
