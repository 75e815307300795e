// rows_down.cc: what is heard in states 4, 5 and 6 (docs/MACHINE.md). See rows.h.
#include "course.h"

namespace monitor {

// UI and XID, in every state (clauses 5.2.3 and 5.8.5).
void Rows::unit(const Possible &it, const Frame &frame, Outcomes &out) const {
    bool is_too_long = frame.kind == Kind::ui && frame.length > terms.n201;
    if (is_too_long && it.s.is_up() && terms.reading == Reading::annex_b)
        Course(it, "states 7 and 8: UI over N201").re_establish(none_repeated(it.s)).into(out);
    else
        Course(it, "UI, XID").into(out);
}

void Rows::state_4(const Possible &it, const Frame &frame, Outcomes &out) const {
    if (frame.kind == Kind::sabme)
        Course(it, "state 4: SABME").response(Kind::ua, frame.pf).clear_flags().zero().t203().enter(7).into(out);
    else if (frame.kind == Kind::disc)
        Course(it, "state 4: DISC").response(Kind::dm, frame.pf).into(out);
    else if (frame.kind == Kind::dm && !frame.pf && terms.reading == Reading::annex_b)
        Course(it, "state 4: DM F=0").clear_flags().command(Kind::sabme, true).rc(none_repeated(it.s)).t200().enter(5).into(out);
    else
        Course(it, "state 4: any other frame").into(out);
}

void Rows::state_5(const Possible &it, const Frame &frame, Outcomes &out) const {
    if (frame.kind == Kind::sabme)
        Course(it, "state 5: SABME").response(Kind::ua, frame.pf).into(out);
    else if (frame.kind == Kind::disc)
        Course(it, "state 5: DISC").response(Kind::dm, frame.pf).into(out);
    else if (frame.kind == Kind::ua && frame.pf && it.s.owed)
        Course(it, "state 5: UA F=1, a release is owed").command(Kind::disc, true).rc(none_repeated(it.s)).t200().enter(6)
            .into(out);
    else if (frame.kind == Kind::ua && frame.pf)
        Course(it, "state 5: UA F=1").zero().t203().enter(7).into(out);
    else if (frame.kind == Kind::dm && frame.pf)
        Course(it, "state 5: DM F=1").no_timer().enter(4).into(out);
    else
        Course(it, "state 5: any other frame").into(out);
}

void Rows::state_6(const Possible &it, const Frame &frame, Outcomes &out) const {
    if (frame.kind == Kind::sabme)
        Course(it, "state 6: SABME").response(Kind::dm, frame.pf).into(out);
    else if (frame.kind == Kind::disc)
        Course(it, "state 6: DISC").response(Kind::ua, frame.pf).into(out);
    else if ((frame.kind == Kind::ua || frame.kind == Kind::dm) && frame.pf)
        Course(it, "state 6: UA F=1, DM F=1").no_timer().enter(4).into(out);
    else
        Course(it, "state 6: any other frame").into(out);
}

void Rows::heard(const Possible &from, const Tapped &tapped, bool near, Outcomes &out) const {
    Possible it = from;
    it.s.heard++;
    const Frame &frame = tapped.frame;
    if (frame.kind == Kind::reset) {
        Course(it, "reset").into(out);
        Course begun(it, "reset");
        begun.clear_flags().no_timer().enter(4).into(out);
    } else if (frame.kind == Kind::ui || frame.kind == Kind::xid) {
        unit(it, frame, out);
    } else if (it.s.is_up()) {
        states_7_and_8(it, tapped, near, out);
    } else {
        it.s.state == 4 ? state_4(it, frame, out) : it.s.state == 5 ? state_5(it, frame, out) : state_6(it, frame, out);
    }
    for (Outcome &outcome : out)
        if (outcome.after.s.sabme_waits)
            outcome.after.e.due_by = tapped.at + terms.delay;
}

} // namespace monitor
