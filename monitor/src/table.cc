// table.cc: the table at the end: what was counted and estimated of each end, and which reading fits. See output.h.
#include <cinttypes>

#include "output.h"

namespace monitor {

namespace {

std::string plural(long count, const char *one) { return std::to_string(count) + " " + one + (count == 1 ? "" : "s"); }

std::string of_timer(const char *name, const Between &length, size_t count) {
    std::string from = std::to_string(length.least / MILLISECOND), to = std::to_string(length.most / MILLISECOND);
    std::string times = std::to_string(count) + (count == 1 ? " expiry" : " expiries");
    return std::string(name) + " " + from + (from == to ? "" : " to " + to) + " ms (" + times + ")";
}

// What the frames say of the end's configuration.
std::string estimated(const Estimates &it) {
    std::vector<std::string> parts;
    Between length{};
    size_t count = 0;
    if (it.t200(length, count))
        parts.push_back(of_timer("T200", length, count));
    if (it.t203(length, count))
        parts.push_back(of_timer("T203", length, count));
    if (it.most_repeats() >= 0)
        parts.push_back("N200 at least " + std::to_string(it.most_repeats()));
    if (it.most_outstanding() > 0)
        parts.push_back("k at least " + std::to_string(it.most_outstanding()));
    std::string words;
    for (const std::string &part : parts)
        words += (words.empty() ? "" : ", ") + part;
    return words;
}

std::string frames_in_words(const std::vector<long> &frames, long count) {
    std::string words;
    for (long frame : frames)
        words += (words.empty() ? "" : ", ") + std::to_string(frame);
    return (count == 1 ? "frame " : "frames ") + words + (count > static_cast<long>(frames.size()) ? ", .." : "");
}

// Which reading fits, if they were told apart.
std::string fitting(const End &end) {
    long profile = end.only_unexplained(Reading::profile), annex_b = end.only_unexplained(Reading::annex_b);
    if (!end.is_by_both())
        return "";
    if (profile == annex_b)
        return profile == 0 ? "either reading fits" : "neither reading fits better";
    bool is_profile = profile < annex_b;
    Reading fits = is_profile ? Reading::profile : Reading::annex_b, other = is_profile ? Reading::annex_b : Reading::profile;
    return std::string("fits the reading of ") + (fits == Reading::profile ? "the " : "") + name_of(fits) + ", by "
        + frames_in_words(end.by_frames(other), end.only_unexplained(other));
}

void write_end(FILE *to, bool is_network, const End &end) {
    const Estimates &its = end.estimates();
    std::fprintf(to, "  %s: %s, %ld sent again; %ld of %ld toward it lost\n", name_of_end(is_network),
                 plural(its.frames(), "frame").c_str(), its.repeated(), its.lost(), its.all_toward());
    std::string words = estimated(its), reading = fitting(end);
    if (!words.empty())
        std::fprintf(to, "    seems to have %s\n", words.c_str());
    if (!reading.empty())
        std::fprintf(to, "    %s\n", reading.c_str());
    for (size_t what = 0; what < WHATS; what++)
        if (end.counted[what] > 0)
            std::fprintf(to, "    %s: %ld\n", name_of(static_cast<What>(what)), end.counted[what]);
    for (const auto &[row, count] : end.departures)
        std::fprintf(to, "      %ld x %s\n", count, row.c_str());
    if (end.missed > 0)
        std::fprintf(to, "      %ld of these also if the tap missed a frame\n", end.missed);
}

void write_teis(FILE *to, const Teis &teis) {
    static const char *const NAMES[] = {"others", "identity requests", "assigned", "denied", "check requests", "check responses",
                                        "removals", "verifies"};
    std::string words;
    for (size_t type = 1; type <= teis.messages.size(); type++) {
        size_t its = type % teis.messages.size();
        if (teis.messages[its] > 0)
            words += (words.empty() ? "" : ", ") + std::to_string(teis.messages[its]) + " " + NAMES[its];
    }
    if (words.empty())
        return;
    std::fprintf(to, "  TEI management: %s\n", words.c_str());
    for (const auto &[tei, view] : teis.all()) {
        std::string note = teis.note(tei);
        if (view.holders.empty() && note.empty())
            continue;
        std::fprintf(to, "    TEI %d:", tei);
        for (const auto &[ri, since] : view.holders)
            std::fprintf(to, " assigned to Ri %d at %" PRId64 ".%03" PRId64 " s;", ri, since / 1000000, since / 1000 % 1000);
        std::fprintf(to, "%s%s%s\n", view.network_may_lack ? " it may have left since" : "", note.empty() ? "" : " ", note.c_str());
    }
    for (const auto &[why, count] : teis.departures)
        std::fprintf(to, "      %ld x %s\n", count, why.c_str());
    long profile = teis.only_unexplained()[0], annex_b = teis.only_unexplained()[1];
    if (profile != annex_b)
        std::fprintf(to, "    fits the reading of %s\n", profile < annex_b ? "the profile" : "annex B");
}

} // namespace

void write_table(FILE *to, const Judge &judge) {
    long departures = 0, unjudged = 0, unread = 0, missed = 0;
    size_t most = 0;
    std::fputc('\n', to);
    for (const auto &[number, line] : judge.all_lines()) {
        unread += line.unread;
        if (judge.all_lines().size() > 1)
            std::fprintf(to, "line %d\n", number);
        for (const auto &[address, link] : line.all_links()) {
            std::fprintf(to, "SAPI %d TEI %d\n", address.sapi, address.tei);
            for (bool is_network : {true, false}) {
                const End &end = link.end(is_network);
                write_end(to, is_network, end);
                departures += end.counted[static_cast<size_t>(What::departure)];
                unjudged += end.counted[static_cast<size_t>(What::cannot_judge)];
                missed += end.missed;
                most = std::max(most, end.most_states());
            }
        }
        write_teis(to, line.all_teis());
        departures += line.all_teis().counted[static_cast<size_t>(What::departure)];
    }
    std::fprintf(to, "in all: %s, %s", plural(judge.frames, "frame").c_str(), plural(departures, "departure").c_str());
    if (missed > 0)
        std::fprintf(to, " (%ld also if the tap missed a frame)", missed);
    std::fprintf(to, "; at most %zu states of an end\n", most);
    if (unjudged > 0)
        std::fprintf(to, "could not judge %ld times: too many states were possible\n", unjudged);
    if (unread > 0)
        std::fprintf(to, "not judged: %s without an address\n", plural(unread, "frame").c_str());
    if (judge.packets > judge.frames)
        std::fprintf(to, "not judged: %s without a frame of LAPD and its direction\n",
                     plural(judge.packets - judge.frames, "packet").c_str());
}

} // namespace monitor
