// judge.cc: see judge.h.
#include "judge.h"

#include <algorithm>

namespace monitor {

void Judge::packet(Captured &it, AllTold &told) {
    packets++;
    if (!it.is_frame)
        return;
    frames++;
    it.at = latest = std::max(latest, it.at);
    auto line = lines.find(it.line);
    if (line == lines.end())
        line = lines.emplace(it.line, Line(it.line, settings)).first;
    line->second.frame(it, told);
}

void Judge::ends(AllTold &told) {
    for (auto &[number, line] : lines)
        line.ends(latest, told);
}

bool Judge::has_departures() const {
    constexpr size_t DEPARTURE = static_cast<size_t>(What::departure);
    for (const auto &[number, line] : lines) {
        if (line.all_teis().counted[DEPARTURE] > 0)
            return true;
        for (const auto &[address, link] : line.all_links())
            if (link.end(true).counted[DEPARTURE] + link.end(false).counted[DEPARTURE] > 0)
                return true;
    }
    return false;
}

} // namespace monitor
