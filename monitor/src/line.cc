// line.cc: see line.h.
#include "line.h"

namespace monitor {

Line::Line(int its_number, const Settings &its_settings) : number(its_number), settings(its_settings), teis(its_settings) {}

Link &Line::link_at(const Address &address) {
    auto found = links.find(address);
    if (found == links.end())
        found = links.emplace(address, Link(settings.terms(), settings.readings == Readings::both, false)).first;
    return found->second;
}

void Line::tell(const Captured &it, const Address &address, const std::string &frame, bool is_from_network,
                const std::array<Verdicts, 2> &said, AllTold &told) const {
    for (size_t end = 0; end < said.size(); end++)
        for (const Verdict &verdict : said[end]) {
            Told one;
            one.at = it.at;
            one.number = it.number;
            one.line = number;
            one.address = address;
            one.is_network = end == 0;
            one.frame = one.is_network == is_from_network && verdict.what != What::fell_silent ? frame : "";
            one.verdict = verdict;
            one.note = verdict.what == What::departure || verdict.what == What::doubled ? teis.note(address.tei) : "";
            told.push_back(one);
        }
}

void Line::begin_anew(const std::vector<Leave> &leaves, const Captured &it, AllTold &told) {
    for (const Leave &leave : leaves)
        for (auto &[address, link] : links) {
            if (leave.tei != GROUP && leave.tei != address.tei)
                continue;
            std::array<Verdicts, 2> said;
            link.may_begin_anew(it.at, leave.at_network, leave.at_user, it.number, said);
            tell(it, address, "", false, said, told);
        }
}

void Line::managed(const Captured &it, const Frame &frame, AllTold &told) {
    std::vector<Leave> leaves;
    std::vector<OfMessage> said;
    teis.frame(it, leaves, said);
    for (const OfMessage &of : said) {
        Told one;
        one.at = it.at;
        one.number = it.number;
        one.line = number;
        one.address = {MANAGEMENT, of.tei};
        one.is_network = of.is_network;
        one.is_of_teis = true;
        one.frame = in_words(frame);
        one.verdict = of.verdict;
        told.push_back(one);
    }
    begin_anew(leaves, it, told);
}

void Line::frame(const Captured &it, AllTold &told) {
    Address address{};
    Tapped tapped;
    tapped.at = it.at;
    tapped.is_damaged = it.is_damaged;
    bool is_from_network = it.from == Origin::network;
    if (!read_frame(it.octets, is_from_network, settings.known.n201, address, tapped.frame)) {
        unread++;
        return;
    }
    if (address.tei == GROUP) {
        to_group++;
        if (address.sapi == MANAGEMENT && tapped.frame.kind == Kind::ui && !it.is_damaged)
            managed(it, tapped.frame, told);
        return;
    }
    Link &link = link_at(address);
    std::array<Verdicts, 2> said;
    if (!is_from_network)
        teis.is_used(address.tei);
    link.end(false).may_be_two = teis.may_be_doubled(address.tei);
    bool may_leave_network = teis.may_leave(address.tei, true, it.at), may_leave_user = teis.may_leave(address.tei, false, it.at);
    if (may_leave_network || may_leave_user)
        link.may_begin_anew(it.at, may_leave_network, may_leave_user, it.number, said);
    link.frame(tapped, is_from_network, it.number, said);
    tell(it, address, in_words(tapped.frame), is_from_network, said, told);
}

void Line::ends(Time at, AllTold &told) {
    Captured last;
    last.at = at;
    for (auto &[address, link] : links) {
        std::array<Verdicts, 2> said;
        link.end(true).ends(said[0]);
        link.end(false).ends(said[1]);
        tell(last, address, "", false, said, told);
    }
}

} // namespace monitor
