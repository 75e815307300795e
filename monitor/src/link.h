// link.h: a data link of a line, for one TEI and SAPI: its two ends, each by the readings that are to be told apart.
#ifndef MONITOR_LINK_H
#define MONITOR_LINK_H

#include <array>
#include <map>

#include "watch.h"

namespace monitor {

constexpr size_t READINGS = 2;
const char *name_of(Reading reading);

// One end. By which reading it goes does not matter at first; from the first event at which they differ each has a watch of its
// own. A frame departs if the reading departs that has explained most before; if both did equally, only if both depart.
class End {
  public:
    // By one reading, or by both.
    End(const Terms &terms, bool is_by_both, bool is_fresh);

    void hears(const Tapped &it, long number, Verdicts &told);
    void sends(const Frame &frame, Time now, long number, Verdicts &told);
    // The capture ends: what all frames together say.
    void ends(Verdicts &told);

    bool is_fitting(Reading reading) const;
    // So many frames this reading alone does not explain, of those that the other does; and the first of these.
    long only_unexplained(Reading reading) const { return only[static_cast<size_t>(reading)].count; }
    const std::vector<long> &by_frames(Reading reading) const { return only[static_cast<size_t>(reading)].first; }
    const Estimates &estimates() const { return leading().estimates(); }
    size_t most_states() const;
    bool is_by_both() const { return by_both; }

    bool may_be_two = false;                    // two terminals may send its frames: none of them has to explain all
    std::array<long, WHATS> counted{};          // verdicts, by what they are
    std::map<std::string, long> departures;     // by row and guard
    long missed = 0;                            // departures that a missed frame would explain

  private:
    struct Only {
        long count = 0;
        std::vector<long> first;
    };

    void part();
    void join();
    void judge(const std::array<Verdicts, READINGS> &each, long number, Verdicts &told);
    size_t leader() const;
    const Watch &leading() const { return watches[watches.size() > 1 ? leader() : 0]; }
    void count(const Verdicts &told);
    Verdicts as_of_two(Verdicts told) const;

    bool by_both;
    std::vector<Watch> watches; // one, or one for each reading
    uint32_t apart = 0;         // of the frames toward the end those below this number may be read differently
    std::array<long, READINGS> unexplained{};
    std::array<Only, READINGS> only;
};

// The network's end and the user's.
class Link {
  public:
    Link(const std::array<Terms, 2> &terms, bool is_by_both, bool is_fresh);

    // A frame that one of them sent. What is said of the network's end comes first.
    void frame(const Tapped &it, bool is_from_network, long number, std::array<Verdicts, 2> &told);
    // The link may have begun anew at these ends.
    void may_begin_anew(Time now, bool at_network, bool at_user, long number, std::array<Verdicts, 2> &told);

    End &end(bool is_network) { return ends[is_network ? 0 : 1]; }
    const End &end(bool is_network) const { return ends[is_network ? 0 : 1]; }

  private:
    std::array<End, 2> ends;
};

} // namespace monitor

#endif
