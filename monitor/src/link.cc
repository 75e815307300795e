// link.cc: see link.h.
#include "link.h"

#include <algorithm>

namespace monitor {

namespace {

constexpr size_t MOST_FRAMES_TOLD = 5, MOST_ROWS = 1000;

// Whether the readings may differ as this frame comes, or goes (docs/MACHINE.md, "Two readings"). A release in state 5 sends
// what one in state 7 does, right after UA: by that no frame tells them apart.
bool may_differ_heard(const Frame &frame, const Terms &terms) {
    return (frame.kind == Kind::dm && !frame.pf) || (frame.kind == Kind::ui && frame.length > terms.n201);
}

bool may_differ_sent(const Frame &frame, const Terms &terms) {
    return terms.n200 > 0 && frame.is_command && frame.pf && (frame.kind == Kind::rr || frame.kind == Kind::rnr);
}

} // namespace

const char *name_of(Reading reading) { return reading == Reading::profile ? "profile" : "annex B"; }

End::End(const Terms &terms, bool is_by_both, bool is_fresh) : by_both(is_by_both) { watches.emplace_back(terms, is_fresh); }

// Each reading gets a watch of its own.
void End::part() {
    if (watches.size() > 1)
        return;
    watches.push_back(watches.front());
    watches[0].read_by(Reading::profile);
    watches[1].read_by(Reading::annex_b);
}

// Both know the same again, and nothing that they read differently is in transit.
void End::join() {
    bool can_join = watches.size() > 1 && watches[0].first_in_transit() >= apart && watches[1].first_in_transit() >= apart;
    if (can_join && watches[0].agrees(watches[1]))
        watches.erase(watches.begin() + (leader() == 0 ? 1 : 0));
}

size_t End::leader() const { return unexplained[1] < unexplained[0] ? 1 : 0; }

void End::hears(const Tapped &it, long number, Verdicts &told) {
    if (by_both && may_differ_heard(it.frame, watches.front().known())) {
        part();
        apart = watches.front().tapped() + 1;
    }
    std::array<Verdicts, READINGS> each;
    for (size_t i = 0; i < watches.size(); i++)
        watches[i].hears(it, each[i]);
    judge(each, number, told);
}

void End::sends(const Frame &frame, Time now, long number, Verdicts &told) {
    if (by_both && may_differ_sent(frame, watches.front().known()))
        part();
    std::array<Verdicts, READINGS> each;
    for (size_t i = 0; i < watches.size(); i++)
        watches[i].sends(frame, now, each[i]);
    judge(each, number, told);
    join();
}

// What is told, if the readings say different things.
void End::judge(const std::array<Verdicts, READINGS> &each, long number, Verdicts &told) {
    if (each[0].empty() && each[1].empty())
        return;
    size_t chosen = 0;
    if (watches.size() > 1) {
        bool is_tied = unexplained[0] == unexplained[1];
        chosen = !is_tied ? leader() : each[1].size() < each[0].size() ? 1 : 0;
        for (size_t i = 0; i < READINGS; i++) {
            unexplained[i] += !each[i].empty();
            if (each[i].empty() || !each[1 - i].empty())
                continue;
            only[i].count++;
            if (only[i].first.size() < MOST_FRAMES_TOLD)
                only[i].first.push_back(number);
        }
    }
    Verdicts its = may_be_two ? as_of_two(each[chosen]) : each[chosen];
    count(its);
    told.insert(told.end(), its.begin(), its.end());
}

// What is said of an end, if it may be two.
Verdicts End::as_of_two(Verdicts told) const {
    for (Verdict &it : told) {
        if (it.what != What::departure && it.what != What::fell_silent && it.what != What::began_anew)
            continue;
        std::string of_one = it.what == What::departure ? "" : std::string(name_of(it.what)) + ": ";
        it.why = "no one terminal does so: " + of_one + it.why;
        it.what = What::doubled;
    }
    return told;
}

void End::count(const Verdicts &told) {
    for (const Verdict &it : told) {
        counted[static_cast<size_t>(it.what)]++;
        if (it.what != What::departure)
            continue;
        missed += it.is_missed;
        if (departures.size() < MOST_ROWS || departures.count(it.why) != 0)
            departures[it.why]++;
    }
}

void End::ends(Verdicts &told) {
    for (Watch &it : watches)
        it.ends();
    Verdicts last;
    if (may_be_two)
        return;
    for (const std::string &words : leading().estimates().unlikely())
        last.push_back({What::unlikely, words, "", false});
    count(last);
    told.insert(told.end(), last.begin(), last.end());
}

bool End::is_fitting(Reading reading) const {
    size_t its = static_cast<size_t>(reading);
    return unexplained[its] <= unexplained[1 - its];
}

size_t End::most_states() const {
    size_t most = 0;
    for (const Watch &it : watches)
        most = std::max(most, it.most_states());
    return most;
}

Link::Link(const std::array<Terms, 2> &terms, bool is_by_both, bool is_fresh)
    : ends{End(terms[0], is_by_both, is_fresh), End(terms[1], is_by_both, is_fresh)} {}

void Link::frame(const Tapped &it, bool is_from_network, long number, std::array<Verdicts, 2> &told) {
    size_t from = is_from_network ? 0 : 1;
    ends[from].sends(it.frame, it.at, number, told[from]);
    ends[1 - from].hears(it, number, told[1 - from]);
}

void Link::may_begin_anew(Time now, bool at_network, bool at_user, long number, std::array<Verdicts, 2> &told) {
    Tapped reset;
    reset.frame.kind = Kind::reset;
    reset.at = now;
    if (at_network)
        ends[0].hears(reset, number, told[0]);
    if (at_user)
        ends[1].hears(reset, number, told[1]);
}

} // namespace monitor
