// line.h: a D-channel: its links, and what is told of them.
#ifndef MONITOR_LINE_H
#define MONITOR_LINE_H

#include "captured.h"
#include "link.h"
#include "settings.h"
#include "teis.h"

namespace monitor {

// What is told of a frame, or after it.
struct Told {
    Time at = 0;
    long number = 0;       // of the packet
    int line = 0;
    Address address = {0, 0};
    bool is_network = false; // the end that it is about
    bool is_of_teis = false; // of TEI management, not of a link
    std::string frame;       // in words, if the end sent it
    Verdict verdict;
    std::string note;        // what else is to be known, as that the TEI may be doubled
};
using AllTold = std::vector<Told>;

class Line {
  public:
    Line(int number, const Settings &its_settings);

    void frame(const Captured &it, AllTold &told);
    void ends(Time at, AllTold &told);

    const std::map<Address, Link> &all_links() const { return links; }
    const Teis &all_teis() const { return teis; }
    int its_number() const { return number; }
    // Frames without an address, and to the group, which no link has.
    long unread = 0, to_group = 0;

  private:
    Link &link_at(const Address &address);
    void managed(const Captured &it, const Frame &frame, AllTold &told);
    void begin_anew(const std::vector<Leave> &leaves, const Captured &it, AllTold &told);
    void tell(const Captured &it, const Address &address, const std::string &frame, bool is_from_network,
              const std::array<Verdicts, 2> &said, AllTold &told) const;

    int number;
    const Settings &settings;
    Teis teis;
    std::map<Address, Link> links;
};

} // namespace monitor

#endif
