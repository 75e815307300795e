// output.h: where what is told goes: lines of text, lines of JSON, and a capture with comments.
#ifndef MONITOR_OUTPUT_H
#define MONITOR_OUTPUT_H

#include <cstdio>

#include "judge.h"

namespace monitor {

// The whole capture, as it was judged.
struct Summary {
    const Judge &judge;
    bool wants_table = true;
};

class Output {
  public:
    virtual ~Output() = default;
    // A packet, and what is told of it, or as it comes.
    virtual void packet(const Captured &it, const AllTold &told) = 0;
    // The capture ends, and what all of it says.
    virtual void ends(const AllTold &told, const Summary &summary) = 0;
};

std::unique_ptr<Output> text_output(FILE *to);
std::unique_ptr<Output> json_output(FILE *to);
// Throws Fault if the file can't be written.
std::unique_ptr<Output> annotated_output(const std::string &name);

// As in "not our table: sent RR response F=0 N(R)=3: what a link sends, 3 .., but: N(R) is not V(R); it was in [..]".
std::string in_words(const Told &told);
// As in "network" or "user".
const char *name_of_end(bool is_network);
// Writes the table at the end.
void write_table(FILE *to, const Judge &judge);

} // namespace monitor

#endif
