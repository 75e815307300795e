// teis.h: TEI management of a line (docs/MACHINE.md, clause 5.3): who may have which TEI, and which messages no table sends.
#ifndef MONITOR_TEIS_H
#define MONITOR_TEIS_H

#include <array>
#include <map>
#include <set>
#include <vector>

#include "captured.h"
#include "settings.h"
#include "verdict.h"

namespace monitor {

constexpr int GROUP = 127, MANAGEMENT = 63;

// The links of a TEI, or of all if it is the group's, may begin anew at these ends.
struct Leave {
    int tei;
    bool at_network, at_user;
};

// What is said of a message.
struct OfMessage {
    int tei;
    bool is_network; // the end that it is about
    Verdict verdict;
};

// What may be so of a TEI. All that the messages leave open stays possible: a terminal that has it may always have missed that it
// was removed. So from the second assignment on two terminals may have it.
struct TeiView {
    std::map<int, Time> holders;        // reference numbers by which it was assigned, each since when
    bool is_used = false;               // a terminal sent a frame of its links
    bool network_may_lack = true;       // it may not be on the network's line
    bool may_be_doubled = false;        // it was assigned while another terminal may have it
    bool is_doubled = false;            // a check had more answers than one terminal gives
    Time checked = LONG_AGO;            // the latest check request
    int checks = 0, responses = 0;      // of a check the requests, by its periods, and the responses to them
    Time network_unsure_from = NEVER, user_unsure_from = NEVER; // it may leave these ends from then on
    Time network_unsure_to = LONG_AGO, user_unsure_to = LONG_AGO;
};

enum class Message : uint8_t { request = 1, assigned, denied, check, response, remove, verify };

class Teis {
  public:
    explicit Teis(const Settings &its_settings) : settings(its_settings) {}

    // A UI frame to the group with SAPI 63.
    void frame(const Captured &it, std::vector<Leave> &leaves, std::vector<OfMessage> &said);
    // The TEI may leave this end now: a check or a verify was perhaps not answered.
    bool may_leave(int tei, bool at_network, Time now) const;
    // A terminal sent a frame of a link of this TEI.
    void is_used(int tei) { teis[tei].is_used = true; }
    // Two terminals may have it. No one terminal has to send then what the user's end of a link sends.
    bool may_be_doubled(int tei) const;
    // What is to be known of a frame of a link of this TEI; or empty.
    std::string note(int tei) const;

    const std::map<int, TeiView> &all() const { return teis; }
    std::array<long, 8> messages{};     // by their types; at 0 what is none
    std::array<long, WHATS> counted{};  // verdicts, by what they are
    std::map<std::string, long> departures;
    // Messages that only one reading sends, against the other.
    const std::array<long, 2> &only_unexplained() const { return unexplained; }

  private:
    struct Fields {
        int ri, type, ai;
        std::vector<int> more; // Ai of a check response of several
        bool is_longer = false; // octets follow that are no part of it
    };

    bool read(const Octets &octets, Fields &fields) const;
    void requested(const Fields &it, Time now);
    void assigned(const Fields &it, Time now, std::vector<Leave> &leaves);
    void denied(const Fields &it);
    void checked(int ai, Time now);
    void responded(const Fields &it, Time now);
    void removed(int ai, Time now, std::vector<Leave> &leaves);
    void verified(int ai, Time now);

    void depart(bool is_network, int tei, const std::string &why);
    void only_by(Reading reading, bool is_network, int tei, const std::string &why);
    void say(bool is_network, int tei, What what, const std::string &why);
    bool is_early(Time now) const { return now <= began + EARLY; }

    static constexpr Time EARLY = 5000 * MILLISECOND; // what was asked before the capture is answered by then

    const Settings &settings;
    std::map<int, TeiView> teis;
    std::map<int, Time> asked;                  // identity requests by their Ri
    std::map<int, int> wanted;                  // the Ai of these, if it is not the group's
    Time began = LONG_AGO, all_checked = LONG_AGO; // the first message; the latest check of all TEIs
    std::array<long, 2> unexplained{};
    std::vector<OfMessage> *said_now = nullptr; // of the message under way
};

} // namespace monitor

#endif
