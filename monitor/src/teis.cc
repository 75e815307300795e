// teis.cc: see teis.h.
#include "teis.h"

#include <algorithm>

namespace monitor {

namespace {

// Lengths of T201 and T202 are not asked for. A check ends one to two T201 after its latest request, which is 1 s by Q.921 and
// 2 s at others; T202 is 2 s, or 1 s (5.9.6 and 5.9.7).
constexpr Time SHORTEST_PERIOD = 800 * MILLISECOND, LONGEST_PERIOD = 2200 * MILLISECOND;
constexpr int ENTITY = 15, LEAST_ASSIGNED = 64, MOST_ASSIGNED = 126;
constexpr size_t HEAD = 3, SHORTEST = 8, MOST_AI = 64;
constexpr size_t MOST_REMEMBERED = 100000, MOST_ROWS = 1000;

bool is_networks(int type) { return type == 2 || type == 3 || type == 4 || type == 6; }

std::string number(int it) { return std::to_string(it); }

// Forgets the oldest of too many.
void bound(std::map<int, Time> &asked, std::map<int, int> &wanted) {
    if (asked.size() <= MOST_REMEMBERED)
        return;
    asked.clear();
    wanted.clear();
}

} // namespace

// The five octets of a message, and of a check response perhaps more Ai (clauses 5.3.3.2 and 5.3.6, table 8). Nobody is to send
// others after these, which annex B's rows do not look at.
bool Teis::read(const Octets &octets, Fields &fields) const {
    if (octets.size() < SHORTEST || octets[HEAD] != ENTITY)
        return false;
    fields.ri = octets[HEAD + 1] << 8 | octets[HEAD + 2];
    fields.type = octets[HEAD + 3];
    fields.ai = octets[HEAD + 4] >> 1;
    size_t last = HEAD + 4;
    while (last < octets.size() && (octets[last] & 1) == 0)
        last++;
    if (last == octets.size())
        return false;
    for (size_t i = HEAD + 4; i <= last; i++)
        fields.more.push_back(octets[i] >> 1);
    fields.is_longer = last + 1 < octets.size();
    bool may_be_several = fields.type == static_cast<int>(Message::response) && fields.more.size() <= MOST_AI;
    return fields.type >= 1 && fields.type <= 7 && (fields.more.size() == 1 || may_be_several);
}

void Teis::say(bool is_network, int tei, What what, const std::string &why) {
    said_now->push_back({tei, is_network, {what, why, "", false}});
    counted[static_cast<size_t>(what)]++;
    if (what == What::departure && (departures.size() < MOST_ROWS || departures.count(why) != 0))
        departures[why]++;
}

void Teis::depart(bool is_network, int tei, const std::string &why) { say(is_network, tei, What::departure, why); }

// Only this reading has a row for it. It departs if the other has explained as much before, or more, or alone is asked for.
void Teis::only_by(Reading reading, bool is_network, int tei, const std::string &why) {
    size_t other = reading == Reading::profile ? 1 : 0;
    bool is_by_other = settings.readings != Readings::both && (settings.readings == Readings::annex_b) == (other == 1);
    bool was_better = settings.readings == Readings::both && unexplained[other] < unexplained[1 - other];
    unexplained[other]++;
    if (is_by_other || was_better)
        depart(is_network, tei, why + (reading == Reading::profile ? " (the profile has it)" : " (annex B has it)"));
}

void Teis::frame(const Captured &it, std::vector<Leave> &leaves, std::vector<OfMessage> &said) {
    said_now = &said;
    if (began == LONG_AGO)
        began = it.at;
    bool is_network = it.from == Origin::network;
    Fields fields;
    if (!read(it.octets, fields)) {
        messages[0]++;
        return depart(is_network, GROUP, "no message of TEI management has these octets");
    }
    messages[static_cast<size_t>(fields.type)]++;
    if (fields.is_longer) {
        depart(is_network, fields.ai, "octets follow those of the message");
        if (settings.readings == Readings::profile)
            return;
    }
    if (is_networks(fields.type) != is_network)
        return depart(is_network, fields.ai, "a message that only the other side sends");
    switch (static_cast<Message>(fields.type)) {
    case Message::request: return requested(fields, it.at);
    case Message::assigned: return assigned(fields, it.at, leaves);
    case Message::denied: return denied(fields);
    case Message::check: return checked(fields.ai, it.at);
    case Message::response: return responded(fields, it.at);
    case Message::remove: return removed(fields.ai, it.at, leaves);
    case Message::verify: return verified(fields.ai, it.at);
    }
}

void Teis::requested(const Fields &it, Time now) {
    bound(asked, wanted);
    asked[it.ri] = now;
    wanted.erase(it.ri);
    if (it.ai == GROUP)
        return;
    wanted[it.ri] = it.ai;
    depart(false, it.ai, "a terminal's identity request has Ai 127, this one " + number(it.ai));
}

// The network assigns by a request's Ri, and a TEI that is not on the line (clause 5.3.2).
void Teis::assigned(const Fields &it, Time now, std::vector<Leave> &leaves) {
    if (asked.count(it.ri) == 0) {
        if (!is_early(now))
            depart(true, it.ai, "identity assigned by an Ri that nobody asked with");
    } else if (it.ai < LEAST_ASSIGNED || it.ai > MOST_ASSIGNED) {
        depart(true, it.ai, "identity assigned, but Ai is not 64 to 126");
    }
    TeiView &view = teis[it.ai];
    bool has_it = view.holders.count(it.ri) != 0;
    if (has_it && !view.network_may_lack)
        only_by(Reading::profile, true, it.ai, "identity assigned again to the Ri that has the TEI");
    if (!has_it && !view.network_may_lack)
        say(true, it.ai, What::began_anew, "the TEI is on the line, and neither a removal nor a check without an answer came: the"
            " network has forgotten it, unseen, or assigns what another has");
    view.may_be_doubled |= view.is_used || (!has_it && !view.holders.empty());
    view.holders[it.ri] = now;
    view.network_may_lack = false;
    view.network_unsure_to = view.user_unsure_to = LONG_AGO;
    leaves.push_back({it.ai, true, true});
}

void Teis::denied(const Fields &it) {
    auto want = wanted.find(it.ri);
    if (want != wanted.end() && it.ai == want->second)
        return only_by(Reading::annex_b, true, it.ai, "identity denied with the Ai that was asked for");
    if (it.ai != GROUP)
        depart(true, it.ai, "identity denied has Ai 127, this one " + number(it.ai));
    else if (asked.count(it.ri) == 0 && teis.empty())
        return;
    else if (asked.count(it.ri) == 0)
        depart(true, it.ai, "identity denied by an Ri that nobody asked with");
}

// A period of a check begins. If none is answered, the TEI leaves the network's line (clause 5.3.3.2).
void Teis::checked(int ai, Time now) {
    if (ai == GROUP)
        all_checked = now;
    for (auto &[tei, view] : teis)
        if (ai == GROUP && tei != ai)
            checked(tei, now);
    if (ai == GROUP)
        return;
    TeiView &view = teis[ai];
    bool goes_on = now <= view.checked + LONGEST_PERIOD + settings.known.delay;
    view.checks = goes_on ? view.checks + 1 : 1;
    view.responses = goes_on ? view.responses : 0;
    view.checked = now;
    view.network_may_lack = true;
    view.network_unsure_from = now + SHORTEST_PERIOD;
    view.network_unsure_to = now + 2 * LONGEST_PERIOD + settings.known.delay;
}

void Teis::responded(const Fields &it, Time now) {
    if (it.more.size() > 1)
        only_by(Reading::annex_b, false, it.ai,
                "a check response has one Ai, this one " + number(static_cast<int>(it.more.size())));
    for (int ai : it.more) {
        TeiView &view = teis[ai];
        bool is_asked = now <= std::max(view.checked, all_checked) + 2 * LONGEST_PERIOD + settings.known.delay;
        if (!is_asked && !is_early(now))
            depart(false, ai, "identity check response, but no check request for the TEI came before");
        // A response may be late, and belong to the period before.
        if (is_asked && view.checks > 0 && ++view.responses == view.checks + 1) {
            view.is_doubled = true;
            say(false, ai, What::doubled, "more check responses than requests: two terminals have the TEI");
        }
    }
}

void Teis::removed(int ai, Time now, std::vector<Leave> &leaves) {
    for (auto &[tei, view] : teis) {
        if (ai != GROUP && tei != ai)
            continue;
        bool is_unanswered = view.checks >= 2 && view.responses == 0 && now <= view.checked + LONGEST_PERIOD + settings.known.delay;
        if (is_unanswered && ai != GROUP)
            only_by(Reading::annex_b, true, tei, "identity remove after a check without an answer");
        view.network_may_lack = true;
        view.checks = 0;
        view.user_unsure_from = now;
        view.user_unsure_to = now + settings.known.delay;
    }
    leaves.push_back({ai, true, true});
}

// If no check comes, the TEI leaves the terminal (clause 5.3.5).
void Teis::verified(int ai, Time now) {
    TeiView &view = teis[ai];
    view.user_unsure_from = std::min(view.user_unsure_from, now + SHORTEST_PERIOD);
    view.user_unsure_to = now + 2 * LONGEST_PERIOD + settings.known.delay;
}

bool Teis::may_leave(int tei, bool at_network, Time now) const {
    auto found = teis.find(tei);
    if (found == teis.end())
        return false;
    const TeiView &view = found->second;
    return at_network ? now >= view.network_unsure_from && now <= view.network_unsure_to
                      : now >= view.user_unsure_from && now <= view.user_unsure_to;
}

bool Teis::may_be_doubled(int tei) const {
    auto found = teis.find(tei);
    return found != teis.end() && (found->second.may_be_doubled || found->second.is_doubled);
}

std::string Teis::note(int tei) const {
    auto found = teis.find(tei);
    if (found == teis.end())
        return "";
    return found->second.is_doubled ? "two terminals answered a check of this TEI"
        : found->second.may_be_doubled ? "the TEI was assigned anew, and another terminal may have it, too" : "";
}

} // namespace monitor
