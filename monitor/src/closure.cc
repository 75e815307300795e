// closure.cc: see closure.h.
#include "closure.h"

#include <algorithm>

namespace monitor {

Outcome &Closure::timed(Outcome &outcome, Time from, Time to) {
    Possible &it = outcome.after;
    if (outcome.is_started) {
        it.e.started_from = from;
        it.e.started_to = to;
    } else if (it.s.timer == Timer::none) {
        it.e.started_from = LONG_AGO;
        it.e.started_to = NEVER;
    }
    if (!it.s.pending && !it.s.sabme_waits)
        it.e.due_by = NEVER;
    return outcome;
}

void Closure::add(Set &set, const Possible &it) {
    size_t place = 0;
    if (set.add(it, &place) == Set::Added::wider && place < looked_at)
        again.push_back(place);
}

// The next frame toward it is lost, or heard without an answer.
void Closure::unheard(Set &set, const Possible &it, Time now) {
    const Tapped &next = transit[it.s.heard];
    if (next.is_damaged || (terms.loses && next.frame.kind != Kind::reset)) {
        Possible lost = it;
        lost.s.heard++;
        if (!next.is_damaged) {
            lost.e.losses++;
            lost.e.lost[static_cast<size_t>(toward(next.frame))]++;
        }
        add(set, lost);
    }
    if (next.is_damaged)
        return;
    outcomes.clear();
    rows.heard(it, next, false, outcomes);
    for (Outcome &outcome : outcomes)
        if (!outcome.sends)
            add(set, timed(outcome, next.at, std::min(now, next.at + terms.delay)).after);
}

bool Closure::close(Set &set, Time now, bool goes_down) {
    again.clear();
    for (looked_at = 0; looked_at < set.size() || !again.empty();) {
        size_t place = looked_at;
        if (looked_at < set.size()) {
            looked_at++;
        } else {
            place = again.back();
            again.pop_back();
        }
        const Possible it = set[place];
        Outcome outcome;
        if (rows.gives_up(it, now, outcome))
            add(set, timed(outcome, now, now).after);
        if (rows.asks_in_5(it, outcome))
            add(set, timed(outcome, now, now).after);
        if (goes_down && it.s.state != 4) {
            Possible begun = it;
            begun.s = State{};
            begun.s.heard = it.s.heard;
            begun.e.started_from = LONG_AGO;
            begun.e.started_to = begun.e.due_by = NEVER;
            begun.e.losses += LOSSES_OF_RESET;
            add(set, begun);
        }
        if (it.s.heard < transit.tapped() && !it.s.sabme_waits)
            unheard(set, it, now);
        if (set.size() > terms.most)
            return false;
    }
    return true;
}

} // namespace monitor
