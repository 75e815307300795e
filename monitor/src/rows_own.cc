// rows_own.cc: what an end does by itself: requests of layer 3, expiries, and what a link sends next (docs/MACHINE.md). See rows.h.
#include <algorithm>

#include "course.h"

namespace monitor {

namespace {

const char *const GUARD_WORDS[GUARDS] = {
    "its timer can't have expired yet", "N200", "the window k is full", "peer busy is on", "V(S) went back without a cause",
    "no I-frame is sent in state 8", "own busy is on already", "nothing that was heard or that expired sends it",
    "reject exception is on", "P/F bit", "N(R) is not V(R)", "another frame is sent then", "C/R bit"};
constexpr int WEIGHTS[GUARDS] = {1, 1, 1, 1, 2, 1, 1, 3, 1, 1, 2, 3, 2};

} // namespace

int weight(unsigned guards) {
    int sum = 0;
    for (int i = 0; i < GUARDS; i++)
        sum += (guards >> i & 1) != 0 ? WEIGHTS[i] : 0;
    return sum;
}

std::string in_words_of(unsigned guards) {
    std::string words;
    for (int i = 0; i < GUARDS; i++)
        if ((guards >> i & 1) != 0)
            words += (words.empty() ? "" : ", ") + std::string(GUARD_WORDS[i]);
    return words;
}

// ---- RC ("Two readings") ----

uint8_t Rows::none_repeated(const State &) const { return terms.n200 < 0 ? UNKNOWN : uint8_t{0}; }

uint8_t Rows::once_more(const State &s) const {
    return terms.n200 < 0 || s.rc == UNKNOWN ? UNKNOWN : std::min<uint8_t>(static_cast<uint8_t>(s.rc + 1), MOST_RC);
}

// As T200 expires in state 7: by annex B that is one of the N200 times, if there are any.
uint8_t Rows::repeated_by_first(const State &s) const {
    bool counts = terms.reading == Reading::annex_b && s.timer == Timer::t200 && terms.n200 > 0;
    return terms.n200 < 0 ? UNKNOWN : counts ? uint8_t{1} : uint8_t{0};
}

unsigned Rows::too_often(const State &s) const {
    return terms.n200 >= 0 && s.rc != UNKNOWN && s.rc >= terms.n200 ? REPEATED_ENOUGH : 0u;
}

// ---- Expiries ----

bool Rows::is_due(const Possible &it, Time now) const {
    if (it.s.timer == Timer::none)
        return false;
    Time length = it.s.timer == Timer::t200 ? terms.t200 : terms.t203;
    return length == 0 || it.e.started_from <= LONG_AGO || now >= it.e.started_from + terms.least(length);
}

bool Rows::gives_up(const Possible &it, Time now, Outcome &out) const {
    const State &s = it.s;
    bool is_last = terms.n200 < 0 || s.rc == UNKNOWN || s.rc >= terms.n200;
    if ((s.state != 5 && s.state != 6) || s.sabme_waits || !is_due(it, now) || !is_last)
        return false;
    out = Course(it, "states 5 and 6: T200 otherwise").no_timer().enter(4).outcome;
    return true;
}

void Rows::expiry_before_up(const Possible &it, const Frame &sent, Time now, Outcomes &out) const {
    const State &s = it.s;
    unsigned guards = (is_due(it, now) ? 0u : TIMER_RUNS) | too_often(s);
    if (s.state == 5 && sent.kind == Kind::sabme)
        Course(it, "state 5: T200").expiry().guard(guards).command(Kind::sabme, true).rc(once_more(s)).t200().into(out);
    if (s.state == 6 && sent.kind == Kind::disc)
        Course(it, "state 6: T200").expiry().guard(guards).command(Kind::disc, true).rc(once_more(s)).t200().into(out);
}

// T200 and T203 in state 7, T200 in state 8: an enquiry, or, if there were enough, SABME.
void Rows::enquiry(const Possible &it, Time now, Outcomes &out) const {
    const State &s = it.s;
    unsigned early = is_due(it, now) ? 0u : TIMER_RUNS;
    if (s.state == 8)
        Course(it, "state 8: T200").expiry().guard(early | too_often(s)).enquiry().rc(once_more(s)).t200().into(out);
    else
        Course(it, s.timer == Timer::t200 ? "state 7: T200" : "state 7: T203")
            .expiry().guard(early).enquiry().rc(repeated_by_first(s)).t200().enter(8).into(out);
}

// ---- Requests ----

bool Rows::asks_in_5(const Possible &it, Outcome &out) const {
    if (it.s.state != 5 || it.s.sabme_waits || terms.reading != Reading::annex_b)
        return false;
    Course course(it, it.s.owed ? "state 5: establish" : "state 5: release");
    course.s().owed = !it.s.owed;
    out = course.outcome;
    return true;
}

void Rows::requests(const Possible &it, const Frame &sent, Outcomes &out) const {
    const State &s = it.s;
    if (sent.kind == Kind::sabme && s.state == 4)
        Course(it, "state 4: establish").clear_flags().command(Kind::sabme, true).rc(none_repeated(s)).t200().enter(5).into(out);
    if (!s.is_up())
        return;
    if (sent.kind == Kind::disc)
        Course(it, "states 7 and 8: release").command(Kind::disc, true).rc(none_repeated(s)).t200().enter(6).into(out);
    if (sent.kind == Kind::rnr) {
        Course course(it, "states 7 and 8: set busy");
        course.guard(s.own_busy ? BUSY_ALREADY : 0u).nothing_pending().response(Kind::rnr, false);
        course.s().own_busy = true;
        course.into(out);
    }
    if (sent.kind == Kind::rr && s.own_busy) {
        Course course(it, "states 7 and 8: clear busy");
        course.nothing_pending().response(Kind::rr, false);
        course.s().own_busy = false;
        course.into(out);
    }
}

// ---- What a link sends ----

void Rows::next_information(const Possible &it, const Frame &sent, Outcomes &out) const {
    const State &s = it.s;
    Course course(it, "what a link sends, 2: the I-frame with N(S) = V(S)");
    course.guard(s.state == 8 ? IN_RECOVERY : 0u).guard(s.peer_busy ? PEER_BUSY : 0u);
    if (s.vs != UNKNOWN && s.vs != sent.ns)
        course.guard(GOES_BACK);
    if (s.vs != UNKNOWN && s.va != UNKNOWN && distance(sent.ns, s.va) >= terms.k)
        course.guard(WINDOW_FULL);
    course.nothing_pending().command(Kind::i, false);
    course.outcome.frame.ns = sent.ns;
    if (s.timer != Timer::t200)
        course.t200();
    course.s().vs = after(sent.ns);
    course.into(out);
}

// What no row sends in any state, so that the nearest words are found for a frame that departs.
void Rows::without_cause(const Possible &it, const Frame &sent, Outcomes &out) const {
    const State &s = it.s;
    if (sent.kind == Kind::ua || sent.kind == Kind::dm)
        Course(it, "an answer to SABME or DISC").guard(NO_CAUSE).response(sent.kind, sent.pf).into(out);
    if (!s.is_up())
        return;
    if (sent.kind == Kind::sabme && s.state == 7)
        Course(it, "re-establish").guard(NO_CAUSE).command(Kind::sabme, true).rc(none_repeated(s)).t200().enter(5).into(out);
    if (sent.kind == Kind::rr && !s.own_busy && !s.pending)
        Course(it, "an acknowledgement").guard(NO_CAUSE).response(Kind::rr, false).into(out);
    if (!sent.is_command && is_supervisory(sent.kind) && (sent.kind == Kind::rej || sent.pf)) {
        Course course(it, sent.kind == Kind::rej ? "REJ" : "an answer");
        course.guard(NO_CAUSE | (sent.kind == Kind::rej && s.rejecting ? REJECTING_ALREADY : 0u));
        course.nothing_pending().response(sent.kind, sent.pf);
        course.s().rejecting |= sent.kind == Kind::rej;
        course.into(out);
    }
}

void Rows::own(const Possible &it, const Frame &sent, Time now, bool near, Outcomes &out) const {
    const State &s = it.s;
    if (sent.kind == Kind::ui || sent.kind == Kind::xid) {
        Course course(it, "unit data, XID");
        course.outcome.sends = true;
        course.outcome.frame = sent;
        course.into(out);
        return;
    }
    if (s.sabme_waits) { // it goes before all that is made later
        if (sent.kind == Kind::sabme) {
            Course course(it, "re-establish, after an answer");
            course.s().sabme_waits = false;
            course.command(Kind::sabme, true).into(out);
        }
        return;
    }
    expiry_before_up(it, sent, now, out);
    requests(it, sent, out);
    if (s.is_up()) {
        if (sent.kind == Kind::rr || sent.kind == Kind::rnr)
            enquiry(it, now, out);
        if (sent.kind == Kind::sabme && s.state == 8)
            Course(it, "state 8: T200 otherwise").expiry().guard(is_due(it, now) ? 0u : TIMER_RUNS)
                .guard(terms.n200 >= 0 && s.rc != UNKNOWN && s.rc < terms.n200 ? REPEATED_ENOUGH : 0u)
                .re_establish(none_repeated(s)).into(out);
        if (sent.kind == Kind::rr && s.pending && !s.own_busy)
            Course(it, "what a link sends, 3: an acknowledgement is pending").nothing_pending().response(Kind::rr, false).into(out);
        if (sent.kind == Kind::i)
            next_information(it, sent, out);
    }
    if (near)
        without_cause(it, sent, out);
}

} // namespace monitor
