// state.cc: see state.h.
#include "state.h"

#include <algorithm>

namespace monitor {

Toward toward(const Frame &frame) {
    if (frame.kind == Kind::i)
        return Toward::information;
    if (!is_supervisory(frame.kind))
        return Toward::unnumbered;
    return frame.is_command && frame.pf ? Toward::polls : Toward::others;
}

bool Evidence::widen(const Evidence &other) {
    bool is_wider = false;
    if (other.losses < losses) {
        losses = other.losses;
        lost = other.lost;
        is_wider = true;
    }
    is_wider |= other.started_from < started_from || other.started_to > started_to || other.due_by > due_by;
    started_from = std::min(started_from, other.started_from);
    started_to = std::max(started_to, other.started_to);
    due_by = std::max(due_by, other.due_by);
    return is_wider;
}

namespace {

std::string number(const char *name, uint8_t value) {
    return std::string(" ") + name + " " + (value == UNKNOWN ? "?" : std::to_string(value));
}

} // namespace

std::string in_words(const Possible &it, uint32_t tapped) {
    const State &s = it.s;
    std::string words = "[state " + std::to_string(s.state);
    if (s.is_up())
        words += number("V(S)", s.vs) + number("V(A)", s.va) + number("V(R)", s.vr);
    if (s.state == 5 || s.state == 6 || s.state == 8)
        words += number("RC", s.rc);
    if (s.peer_busy)
        words += ", peer busy";
    if (s.own_busy)
        words += ", own busy";
    if (s.rejecting)
        words += ", reject exception";
    if (s.pending)
        words += ", acknowledgement pending";
    if (s.owed)
        words += ", a release is owed";
    if (s.timer != Timer::none)
        words += s.timer == Timer::t200 ? ", T200" : ", T203";
    if (tapped != s.heard)
        words += ", " + std::to_string(tapped - s.heard) + " not heard yet";
    return words + "]";
}

} // namespace monitor
