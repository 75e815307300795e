// watch.cc: see watch.h.
#include "watch.h"

#include <algorithm>

namespace monitor {

namespace {

constexpr size_t STATES_TOLD = 3;

Possible in_state(uint8_t state, uint32_t heard) {
    Possible it;
    it.s.state = state;
    it.s.heard = heard;
    if (state > 4) {
        it.s.vs = it.s.va = it.s.vr = state >= 7 ? UNKNOWN : uint8_t{0};
        it.s.rc = state == 7 ? uint8_t{0} : UNKNOWN;
        it.s.timer = Timer::t200;
    }
    return it;
}

// All that an end may be in.
std::vector<Possible> anything() {
    std::vector<Possible> all = {in_state(4, 0), in_state(5, 0), in_state(6, 0), in_state(5, 0)};
    all.back().s.sabme_waits = true;
    for (unsigned flags = 0; flags < 16; flags++)
        for (uint8_t state : {uint8_t{7}, uint8_t{8}})
            for (Timer timer : {Timer::t200, Timer::t203}) {
                Possible it = in_state(state, 0);
                it.s.peer_busy = (flags & 1) != 0;
                it.s.own_busy = (flags & 2) != 0;
                it.s.rejecting = (flags & 4) != 0;
                it.s.pending = (flags & 8) != 0;
                it.s.timer = timer;
                if (!(it.s.own_busy && it.s.pending) && !(state == 8 && timer == Timer::t203))
                    all.push_back(it);
            }
    return all;
}

} // namespace

unsigned differences(const Frame &made, const Frame &seen, Possible &after) {
    unsigned guards = made.kind != seen.kind ? OTHER_FRAME : made.is_command != seen.is_command ? OTHER_CR : 0u;
    if (made.pf != seen.pf)
        guards |= OTHER_PF;
    if (!has_number(made.kind) || !has_number(seen.kind))
        return guards;
    if (made.nr != UNKNOWN)
        return guards | (made.nr != seen.nr ? OTHER_NR : 0u);
    if (after.s.is_up())
        after.s.vr = seen.nr;
    return guards;
}

Watch::Watch(const Terms &its_terms, bool is_fresh) : terms(its_terms), is_judging(is_fresh) {
    if (is_fresh)
        set.add(in_state(4, 0));
    else
        for (const Possible &it : anything())
            set.add(it);
}

// The first frame toward the end that may still come, if so many may at most.
uint32_t Watch::first_timely(Time now, size_t most) const {
    uint32_t heard = transit.first();
    while (heard < transit.tapped() && (transit[heard].at + terms.delay < now || transit.tapped() - heard > most))
        heard++;
    return heard;
}

// Nothing is known any more, except which frames may still come.
void Watch::forget_all(Time now) {
    if (!set.empty())
        found.count_losses(set.likeliest());
    set.clear();
    const std::vector<Possible> all = anything();
    for (uint32_t heard = first_timely(now, terms.most / all.size()); heard <= transit.tapped(); heard++)
        for (Possible it : all) {
            it.s.heard = heard;
            set.add(it);
        }
    deadline = LONG_AGO;
}

// Until a delay after the first frame, what was in transit before it is not known.
void Watch::begin_judging(Time now) {
    if (is_judging)
        return;
    if (began == LONG_AGO)
        began = now;
    if (now <= began + terms.delay)
        return;
    is_judging = true;
    forget_all(now);
}

// ---- What is overdue ----

// A frame came, or is lost, within the delay. A pending acknowledgement was sent, and so was a SABME that waits. T200 expired, and
// led to a frame.
bool Watch::is_overdue(const Possible &it, Time now) const {
    if (it.s.heard < transit.tapped() && transit[it.s.heard].at + terms.delay < now)
        return true;
    if ((it.s.pending || it.s.sabme_waits) && it.e.due_by < now)
        return true;
    return terms.t200 > 0 && it.s.timer == Timer::t200 && it.e.started_to < NEVER
        && it.e.started_to + terms.longest(terms.t200) + terms.delay + terms.wait < now;
}

Time Watch::next_deadline() const {
    Time first = NEVER;
    for (const Possible &it : set) {
        if (it.s.heard < transit.tapped())
            first = std::min(first, transit[it.s.heard].at + terms.delay);
        if (it.s.pending || it.s.sabme_waits)
            first = std::min(first, it.e.due_by);
        if (terms.t200 > 0 && it.s.timer == Timer::t200 && it.e.started_to < NEVER)
            first = std::min(first, it.e.started_to + terms.longest(terms.t200) + terms.delay + terms.wait);
    }
    return first;
}

// Leaves the states in which nothing is overdue. False: there is none.
bool Watch::leave_timely(Time now) {
    if (now <= deadline)
        return true;
    bool is_late = false;
    for (const Possible &it : set)
        is_late |= is_overdue(it, now);
    if (is_late) {
        scratch = set;
        if (!Closure(terms, transit).close(scratch, now, terms.goes_down))
            return true; // the next frame tells that there are too many
        scratch.keep_if([&](const Possible &it) { return !is_overdue(it, now); });
        if (scratch.empty())
            return false;
        take(scratch);
    }
    deadline = next_deadline();
    return true;
}

void Watch::fall_silent(Time now, Verdicts &told) {
    told.push_back({What::fell_silent, "an answer, an acknowledgement or a repetition was not sent in time", possible(), false});
    is_silent = true;
    found.count_losses(set.likeliest());
    following.clear();
    for (uint32_t heard = first_timely(now, terms.most); heard <= transit.tapped(); heard++)
        following.add(in_state(4, heard));
    take(following);
}

void Watch::judge_overdue(Time now, Verdicts &told) {
    begin_judging(now);
    if (leave_timely(now))
        return;
    if (is_judging)
        fall_silent(now, told);
    else
        forget_all(now);
}

// ---- Frames ----

void Watch::hears(const Tapped &it, Verdicts &told) {
    if (!it.is_damaged && it.frame.kind != Kind::reset)
        found.tapped(it.frame);
    transit.push(it);
    deadline = std::min(deadline, it.at + terms.delay);
    judge_overdue(it.at, told);
}

// The states after which the frame is sent. False: there are too many to tell.
bool Watch::explain(const Frame &frame, Time now, bool goes_down, Set &next) {
    scratch = set;
    Closure closure(terms, transit);
    next.clear();
    if (!closure.close(scratch, now, goes_down))
        return false;
    closure.sending(scratch, frame, now, false, [&](const Outcome &outcome, bool, const Possible &) {
        Possible after = outcome.after;
        if ((outcome.guards | differences(outcome.frame, frame, after)) == 0)
            next.add(after);
    });
    return true;
}

// What all explanations of a frame together say of the timers and of the window.
void Watch::estimate(const Frame &frame, Time now) {
    if (!frame.is_command || (!frame.pf && frame.kind != Kind::i))
        return;
    Timer expired = Timer::none;
    bool is_sure = true;
    int outstanding = 128;
    Possible likeliest;
    Closure(terms, transit).sending(scratch, frame, now, false, [&](const Outcome &outcome, bool is_own, const Possible &it) {
        Possible then = outcome.after;
        if ((outcome.guards | differences(outcome.frame, frame, then)) != 0)
            return;
        Timer its = is_own && outcome.is_expiry ? it.s.timer : Timer::none;
        is_sure &= its != Timer::none && (expired == Timer::none || expired == its);
        if (expired == Timer::none || it.e.losses < likeliest.e.losses)
            likeliest = it;
        expired = its;
        outstanding = std::min(outstanding, then.s.va == UNKNOWN || then.s.vs == UNKNOWN ? 0 : distance(then.s.vs, then.s.va));
    });
    if (frame.kind == Kind::i)
        found.outstands(outstanding);
    else if (is_sure && expired != Timer::none)
        found.expired(expired, likeliest.e, now);
}

// These are the states from now on.
void Watch::take(Set &next) {
    set.swap(next);
    set.leave_widest();
    largest = std::max(largest, set.size());
    uint32_t least = transit.tapped();
    for (const Possible &it : set)
        least = std::min(least, it.s.heard);
    transit.forget_below(least);
    deadline = next_deadline();
}

void Watch::cannot_judge(Time now, Verdicts &told) {
    told.push_back({What::cannot_judge, "more than " + std::to_string(terms.most) + " states are possible", "", false});
    forget_all(now);
}

void Watch::sends(const Frame &frame, Time now, Verdicts &told) {
    found.sent(frame);
    judge_overdue(now, told);
    bool was_silent = is_silent;
    is_silent = false;
    bool is_whole = explain(frame, now, terms.goes_down, following);
    if (is_whole && !following.empty()) {
        estimate(frame, now);
        return take(following);
    }
    if (!is_judging)
        return forget_all(now);
    if (is_whole && !was_silent)
        is_whole = explain(frame, now, true, following);
    if (!is_whole)
        return cannot_judge(now, told);
    if (!following.empty()) {
        told.push_back({What::began_anew, "the link was down, deactivated or started anew, unseen", possible(), false});
        found.count_losses(following.likeliest());
        following.forget_losses();
        return take(following);
    }
    is_silent = was_silent;
    depart(frame, now, following, told);
    is_silent = false;
    take(following);
}

void Watch::ends() {
    if (!set.empty())
        found.count_losses(set.likeliest());
    set.forget_losses();
}

bool Watch::may_send(const Frame &frame, Time now) const {
    Watch copy = *this;
    Verdicts told;
    copy.judge_overdue(now, told);
    return told.empty() && copy.explain(frame, now, terms.goes_down, copy.following) && !copy.following.empty();
}

std::vector<State> Watch::states_closed(Time now) const {
    Watch copy = *this;
    Verdicts told;
    std::vector<State> states;
    copy.judge_overdue(now, told);
    if (Closure(copy.terms, copy.transit).close(copy.set, now, terms.goes_down))
        for (const Possible &it : copy.set)
            states.push_back(it.s);
    return states;
}

bool Watch::agrees(const Watch &other) const {
    if (set.size() != other.set.size() || is_silent != other.is_silent)
        return false;
    for (size_t place = 0; place < set.size(); place++) {
        const Possible &a = set[place], &b = other.set[place];
        if (a.s.key() != b.s.key() || a.e.losses != b.e.losses || a.e.started_from != b.e.started_from
            || a.e.started_to != b.e.started_to || a.e.due_by != b.e.due_by)
            return false;
    }
    return true;
}

std::string Watch::possible() const {
    std::vector<Possible> all(set.begin(), set.end());
    std::stable_sort(all.begin(), all.end(), [](const Possible &a, const Possible &b) { return a.e.losses < b.e.losses; });
    std::string words;
    for (size_t i = 0; i < all.size() && i < STATES_TOLD; i++)
        words += (i == 0 ? "" : " or ") + in_words(all[i], transit.tapped());
    if (all.size() > STATES_TOLD)
        words += " or " + std::to_string(all.size() - STATES_TOLD) + " more";
    return words;
}

} // namespace monitor
