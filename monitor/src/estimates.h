// estimates.h: what the frames of an end tell of its configuration, and of the frames toward it that were lost.
#ifndef MONITOR_ESTIMATES_H
#define MONITOR_ESTIMATES_H

#include <array>
#include <map>
#include <string>
#include <vector>

#include "set.h"
#include "terms.h"

namespace monitor {

// A length of time that lies between two.
struct Between {
    Time least, most;
};

class Estimates {
  public:
    // A frame toward the end; not of damaged ones. An answer ends the repetitions of a command.
    void tapped(const Frame &frame) {
        toward_end[static_cast<size_t>(toward(frame))]++;
        if (!frame.is_command && frame.pf)
            last = Frame{};
    }
    // A timer expired, which was started between these moments.
    void expired(Timer timer, const Evidence &started, Time now);
    // So many I-frames are outstanding, at least.
    void outstands(int count) { outstanding = count > outstanding ? count : outstanding; }
    // A frame of the end, explained or not.
    void sent(const Frame &frame);
    // The states are forgotten: what their likeliest needed is counted.
    void count_losses(const Possible &likeliest);

    // What chance does not make: frames of one kind that were lost, though others were not. Empty, or with its figures.
    std::vector<std::string> unlikely() const;

    long frames() const { return all; }
    long repeated() const { return sent_again; }
    long lost() const;
    long all_toward() const;
    int most_outstanding() const { return outstanding; }
    // The most often that a command was repeated before the end gave up, or an answer came; -1: none was.
    int most_repeats() const { return repeats; }
    // Medians of the expiries; false: there was none.
    bool t200(Between &length, size_t &count) const { return median(t200s, length, count); }
    bool t203(Between &length, size_t &count) const { return median(t203s, length, count); }

  private:
    static bool median(const std::vector<Between> &found, Between &length, size_t &count);

    std::array<long, TOWARDS> toward_end{}, lost_there{};
    std::vector<Between> t200s, t203s;
    long all = 0, sent_again = 0;
    int outstanding = -1, repeats = -1, run = 0;
    Frame last;
    uint8_t next_ns = UNKNOWN;
};

// How likely it is by chance that of n of one kind at least x are lost, if of n + m in all x + y are (Fisher's exact test).
double by_chance(long x, long n, long y, long m);

} // namespace monitor

#endif
