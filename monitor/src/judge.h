// judge.h: all lines of a capture.
#ifndef MONITOR_JUDGE_H
#define MONITOR_JUDGE_H

#include "line.h"

namespace monitor {

using Lines = std::map<int, Line>;

class Judge {
  public:
    explicit Judge(const Settings &its_settings) : settings(its_settings) {}

    // Judges a packet. Times that go back stand still: its own is set so.
    void packet(Captured &it, AllTold &told);
    // The capture ends: what all frames together say.
    void ends(AllTold &told);
    bool has_departures() const;

    const Lines &all_lines() const { return lines; }
    long packets = 0, frames = 0; // of all packets those that are frames

  private:
    const Settings &settings;
    Lines lines;
    Time latest = LONG_AGO;
};

} // namespace monitor

#endif
