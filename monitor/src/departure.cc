// departure.cc: a frame that no row sends: which rows almost would, and whether the tap has missed a frame. See watch.h.
#include <set>

#include "watch.h"

namespace monitor {

// The rows with the least weight of guards, of a closed set.
std::vector<Watch::Near> Watch::nearest(const Set &closed, const Frame &frame, Time now) {
    std::vector<Near> found_near;
    int best = MOST_WEIGHT;
    Closure(terms, transit).sending(closed, frame, now, true, [&](const Outcome &outcome, bool is_own, const Possible &) {
        Possible after = outcome.after;
        unsigned guards = outcome.guards | differences(outcome.frame, frame, after);
        int its = weight(guards);
        if ((is_own && (guards & OTHER_FRAME) != 0) || its > best)
            return;
        if (its < best)
            found_near.clear();
        best = its;
        found_near.push_back({guards, after, outcome.row});
    });
    return found_near;
}

void Watch::depart(const Frame &frame, Time now, Set &next, Verdicts &told) {
    Verdict verdict{What::departure, "", possible(), false};
    next.clear();
    if (is_silent) {
        verdict.why = "what was due was not sent in time, and it goes on as if up";
    } else {
        scratch = set;
        bool is_whole = Closure(terms, transit).close(scratch, now, terms.goes_down);
        std::set<std::string> rows;
        for (Near &it : is_whole ? nearest(scratch, frame, now) : std::vector<Near>()) {
            rows.insert(std::string(it.row) + ", but: " + in_words_of(it.guards));
            next.add(it.after);
            if ((it.guards & OTHER_NR) != 0 && it.after.s.is_up()) {
                it.after.s.vr = frame.nr;
                next.add(it.after);
            }
        }
        for (const std::string &row : rows)
            verdict.why += (verdict.why.empty() ? "" : "; or ") + row;
        if (rows.empty())
            verdict.why = std::string("no row sends ") + name_of(frame.kind) + " then";
    }
    Set missed;
    verdict.is_missed = would_be_explained(frame, now, missed);
    for (const Possible &it : missed)
        next.add(it);
    told.push_back(verdict);
    if (!next.empty())
        return;
    forget_all(now);
    if (!explain(frame, now, terms.goes_down, next) || next.empty()) {
        next = set;
    }
}

namespace {

// Frames toward the end that the tap may have missed, as far as they lead somewhere else.
std::vector<Frame> unseen_toward(const State &s) {
    std::vector<Frame> all;
    const uint8_t vr = s.vr == UNKNOWN ? uint8_t{0} : s.vr;
    auto add = [&](Kind kind, bool is_command, bool pf, uint8_t ns, uint8_t nr) {
        all.push_back({kind, is_command, pf, ns, nr, 1});
    };
    for (uint8_t nr : {s.va == UNKNOWN ? uint8_t{0} : s.va, s.vs == UNKNOWN ? uint8_t{0} : s.vs}) {
        for (bool pf : {false, true}) {
            add(Kind::i, true, pf, vr, nr);
            for (Kind kind : {Kind::rr, Kind::rnr, Kind::rej})
                for (bool is_command : {false, true})
                    add(kind, is_command, pf, 0, nr);
        }
    }
    add(Kind::i, true, false, after(vr), s.va == UNKNOWN ? uint8_t{0} : s.va);
    for (Kind kind : {Kind::sabme, Kind::disc, Kind::ua, Kind::dm})
        add(kind, kind == Kind::sabme || kind == Kind::disc, true, 0, 0);
    return all;
}

} // namespace

// A frame toward the end that the tap missed: what it makes is the frame itself, or leads to it.
void Watch::hear_missed(const Possible &it, const Frame &frame, Time now, Set &next, Set &unseen) {
    Rows rows(terms);
    Outcomes outcomes;
    for (const Frame &missed : unseen_toward(it.s)) {
        outcomes.clear();
        rows.heard(it, {missed, now - terms.delay, false}, false, outcomes);
        for (Outcome &outcome : outcomes) {
            Closure::timed(outcome, now - 2 * terms.delay, now);
            outcome.after.s.heard--;
            if (!outcome.sends)
                unseen.add(outcome.after);
            else if (differences(outcome.frame, frame, outcome.after) == 0)
                next.add(outcome.after);
        }
    }
}

// A frame of the end that the tap missed.
void Watch::send_missed(const Possible &it, Time now, Set &unseen) {
    Rows rows(terms);
    Outcomes outcomes;
    Frame missed;
    missed.is_command = true;
    missed.ns = it.s.vs == UNKNOWN ? uint8_t{0} : it.s.vs;
    for (Kind kind : {Kind::i, Kind::rr, Kind::rnr, Kind::rej, Kind::sabme, Kind::disc, Kind::ua, Kind::dm}) {
        missed.kind = kind;
        rows.own(it, missed, now, false, outcomes);
    }
    for (Outcome &outcome : outcomes)
        Closure::timed(outcome, now - terms.wait - terms.delay, now);
    if (it.s.heard < transit.tapped() && !it.s.sabme_waits && !transit[it.s.heard].is_damaged) {
        size_t own = outcomes.size();
        rows.heard(it, transit[it.s.heard], false, outcomes);
        for (; own < outcomes.size(); own++)
            Closure::timed(outcomes[own], transit[it.s.heard].at, now);
    }
    for (const Outcome &outcome : outcomes)
        if (outcome.sends && outcome.guards == 0)
            unseen.add(outcome.after);
}

// Whether one frame that the tap missed would explain it: one of this end's, or one toward it.
bool Watch::would_be_explained(const Frame &frame, Time now, Set &next) {
    Closure closure(terms, transit);
    Set closed = set, unseen;
    if (!closure.close(closed, now, terms.goes_down))
        return false;
    for (const Possible &it : closed) {
        send_missed(it, now, unseen);
        hear_missed(it, frame, now, next, unseen);
        if (unseen.size() > terms.most)
            break;
    }
    if (!closure.close(unseen, now, terms.goes_down))
        return !next.empty();
    closure.sending(unseen, frame, now, false, [&](const Outcome &outcome, bool, const Possible &) {
        Possible after = outcome.after;
        if ((outcome.guards | differences(outcome.frame, frame, after)) == 0)
            next.add(after);
    });
    return !next.empty();
}

} // namespace monitor
