// course.h: a row under way, in the words of docs/MACHINE.md.
#ifndef MONITOR_COURSE_H
#define MONITOR_COURSE_H

#include "rows.h"

namespace monitor {

class Course {
  public:
    Course(const Possible &it, const char *row) { outcome.after = it; outcome.row = row; }

    Course &clear_flags() { s().peer_busy = s().own_busy = s().rejecting = s().pending = false; return *this; }
    Course &zero() { s().vs = s().va = s().vr = 0; return *this; }
    Course &nothing_pending() { s().pending = false; return *this; }
    Course &rc(uint8_t times) { s().rc = times; return *this; }
    Course &t200() { return start(Timer::t200); }
    Course &t203() { return start(Timer::t203); }
    Course &no_timer() { s().timer = Timer::none; return *this; }
    // In states 4 to 6 the flags and numbers mean nothing: each way from there to state 7 clears the flags, and zeroes. Outside of
    // states 5, 6 and 8 RC means nothing. A release is owed in state 5 alone.
    Course &enter(uint8_t state) {
        s().state = state;
        s().owed = false;
        if (state <= 6)
            clear_flags().zero();
        return state == 4 || state == 7 ? rc(0) : *this;
    }
    Course &expiry() { outcome.is_expiry = true; return *this; }
    Course &guard(unsigned guards) { outcome.guards |= guards; return *this; }

    // The frame is made now, with N(R) = V(R) if it has one.
    Course &send(Kind kind, bool is_command, bool pf) {
        outcome.sends = true;
        outcome.frame.kind = kind;
        outcome.frame.is_command = is_command;
        outcome.frame.pf = pf;
        outcome.frame.nr = s().vr;
        return *this;
    }
    Course &command(Kind kind, bool p) { return send(kind, true, p); }
    Course &response(Kind kind, bool f) { return send(kind, false, f); }
    Course &answer() { return nothing_pending().response(s().own_busy ? Kind::rnr : Kind::rr, true); }
    Course &enquiry() { return nothing_pending().command(s().own_busy ? Kind::rnr : Kind::rr, true); }

    // Re-establish (clause 5.7.2). If the row has sent an answer, SABME waits after it.
    Course &re_establish(uint8_t repeats) {
        bool answers = outcome.sends;
        clear_flags().rc(repeats).t200().enter(5);
        if (answers)
            s().sabme_waits = true;
        else
            command(Kind::sabme, true);
        return *this;
    }

    void into(Outcomes &out) const { out.push_back(outcome); }

    State &s() { return outcome.after.s; }

    Outcome outcome;

  private:
    Course &start(Timer timer) {
        s().timer = timer;
        outcome.is_started = true;
        return *this;
    }
};

} // namespace monitor

#endif
