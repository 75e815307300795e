// rows_up.cc: what is heard in states 7 and 8 (docs/MACHINE.md). See rows.h.
#include "course.h"

namespace monitor {

void Rows::states_7_and_8(const Possible &it, const Tapped &tapped, bool near, Outcomes &out) const {
    const Frame &frame = tapped.frame;
    switch (frame.kind) {
    case Kind::sabme:
        Course(it, "states 7 and 8: SABME").response(Kind::ua, frame.pf).clear_flags().zero().t203().enter(7).into(out);
        break;
    case Kind::disc:
        Course(it, "states 7 and 8: DISC").nothing_pending().response(Kind::ua, frame.pf).no_timer().enter(4).into(out);
        break;
    case Kind::ua:
        Course(it, "states 7 and 8: UA").into(out);
        break;
    case Kind::dm:
        if (frame.pf && it.s.state == 7)
            Course(it, "state 7: DM F=1").into(out);
        else
            Course(it, "states 7 and 8: DM").re_establish(none_repeated(it.s)).into(out);
        break;
    case Kind::frmr:
        Course(it, "states 7 and 8: FRMR").re_establish(none_repeated(it.s)).into(out);
        break;
    case Kind::undefined:
    case Kind::wrong_size:
    case Kind::over_n201:
        Course(it, "states 7 and 8: undefined, wrong size, I over N201").re_establish(none_repeated(it.s)).into(out);
        break;
    case Kind::i:
        information(it, tapped, near, out);
        break;
    default:
        supervisory(it, frame, out);
    }
}

// An I-frame first has its contents judged; then its N(R) has effect.
void Rows::information(const Possible &it, const Tapped &tapped, bool near, Outcomes &out) const {
    const Frame &frame = tapped.frame;
    const bool p = frame.pf;
    if (it.s.own_busy) {
        Course course(it, "an I-frame: own busy is on");
        number(p ? course.answer().outcome : course.outcome, frame, out);
        return;
    }
    if (it.s.vr == UNKNOWN || it.s.vr == frame.ns) {
        Course course(it, "an I-frame: N(S) = V(R)");
        State &s = course.s();
        s.vr = after(frame.ns);
        s.rejecting = false;
        if (p) {
            course.answer();
        } else if (!s.pending) {
            s.pending = true;
            course.outcome.after.e.due_by = tapped.at + terms.delay;
        }
        number(course.outcome, frame, out);
    }
    if (it.s.vr != UNKNOWN && it.s.vr == frame.ns)
        return;
    if (!it.s.rejecting) {
        Course course(it, "an I-frame: N(S) differs, reject exception off");
        course.s().rejecting = true;
        number(course.nothing_pending().response(Kind::rej, p).outcome, frame, out);
        return;
    }
    Course course(it, "an I-frame: N(S) differs, reject exception on");
    number(p ? course.answer().outcome : course.outcome, frame, out);
    if (near && !p)
        number(Course(it, "an I-frame: N(S) differs").guard(REJECTING_ALREADY).response(Kind::rej, false).outcome, frame, out);
}

// RR, RNR and REJ: the other's receiver, then an answer to a command with P=1, then N(R).
void Rows::supervisory(const Possible &it, const Frame &frame, Outcomes &out) const {
    bool asks = frame.is_command && frame.pf;
    Course course(it, asks ? "a supervisory frame: a command with P=1" : "a supervisory frame");
    course.s().peer_busy = frame.kind == Kind::rnr;
    number(asks ? course.answer().outcome : course.outcome, frame, out);
}

namespace {

enum Validity : unsigned { CAN_BE_VALID = 1, CAN_BE_INVALID = 2 };

// Whether N(R) is one of V(A) to V(S), which may not be known (clauses 3.5.2.3 and 5.8.2).
unsigned validity(const State &s, uint8_t nr, int k) {
    if (s.va == UNKNOWN && s.vs == UNKNOWN)
        return CAN_BE_VALID | CAN_BE_INVALID;
    if (s.va == UNKNOWN)
        return CAN_BE_INVALID | (distance(s.vs, nr) <= k ? CAN_BE_VALID : 0u);
    if (s.vs == UNKNOWN)
        return (distance(nr, s.va) <= k ? CAN_BE_VALID : 0u) | (distance(nr, s.va) > 0 ? CAN_BE_INVALID : 0u);
    return distance(nr, s.va) <= distance(s.vs, s.va) ? CAN_BE_VALID : CAN_BE_INVALID;
}

// Both numbers become N(R): all is acknowledged, or V(S) goes back.
Course &back_to(Course &course, uint8_t nr) {
    course.s().va = course.s().vs = nr;
    return course;
}

Course &acknowledge(Course &course, uint8_t nr) {
    course.s().va = nr;
    return course;
}

// I while peer busy is off, and RR, in state 7 (clause 5.6.3.2).
void number_in_7(const Course &judged, uint8_t nr, Outcomes &out) {
    const State &s = judged.outcome.after.s;
    if (s.vs == UNKNOWN || nr == s.vs) { // n is s
        Course course = judged;
        back_to(course, nr).t203().into(out);
    }
    if (s.vs != UNKNOWN && nr == s.vs)
        return;
    if (s.va == UNKNOWN || nr != s.va) { // n is beyond a
        Course course = judged;
        acknowledge(course, nr).t200().into(out);
    }
    if (s.va == UNKNOWN || nr == s.va) {
        Course course = judged;
        acknowledge(course, nr).into(out);
    }
}

} // namespace

// N(R) of an I-frame or a supervisory frame, after what came before it.
void Rows::number(const Outcome &before, const Frame &frame, Outcomes &out) const {
    Course judged(before.after, before.row);
    judged.outcome = before;
    const State &s = before.after.s;
    const uint8_t nr = frame.nr;
    unsigned can_be = validity(s, nr, terms.k);
    if ((can_be & CAN_BE_INVALID) != 0) {
        Course course = judged;
        if (!before.sends)
            course.outcome.row = "N(R) is invalid";
        course.re_establish(none_repeated(s)).into(out);
    }
    if ((can_be & CAN_BE_VALID) == 0)
        return;
    bool is_final = !frame.is_command && frame.pf;
    if (s.state == 8 && is_final && frame.kind != Kind::i) { // what was asked is answered: back to N(R)
        back_to(judged, nr).enter(7);
        (frame.kind == Kind::rnr ? judged.t200() : judged.t203()).into(out);
    } else if (s.state == 8 || (frame.kind == Kind::i && s.peer_busy)) {
        acknowledge(judged, nr).into(out);
    } else if (frame.kind == Kind::rnr) {
        acknowledge(judged, nr).t200().into(out);
    } else if (frame.kind == Kind::rej) {
        back_to(judged, nr).t203().into(out);
    } else {
        number_in_7(judged, nr, out);
    }
}

} // namespace monitor
