// estimates.cc: see estimates.h.
#include "estimates.h"

#include <algorithm>
#include <cmath>
#include <cstdio>

namespace monitor {

namespace {

constexpr size_t MOST_EXPIRIES = 10000;
constexpr double LEAST_CHANCE = 1e-5, LEAST_SHARE = 0.8;
constexpr long FEWEST_OTHERS = 5;
// SABME and DISC are not judged so: an end that is not there hears none, and nobody departs.
constexpr size_t JUDGED = 2, COMPARED = 3;
const char *const TOWARD_WORDS[JUDGED] = {"I-frames", "supervisory commands with P=1"};

double log_choose(long n, long k) {
    return std::lgamma(static_cast<double>(n + 1)) - std::lgamma(static_cast<double>(k + 1))
        - std::lgamma(static_cast<double>(n - k + 1));
}

void add(std::vector<Between> &found, const Between &it) {
    if (found.size() < MOST_EXPIRIES)
        found.push_back(it);
}

} // namespace

double by_chance(long x, long n, long y, long m) {
    if (x == 0)
        return 1;
    double sum = 0;
    for (long i = x; i <= std::min(n, x + y); i++)
        sum += std::exp(log_choose(n, i) + log_choose(m, x + y - i) - log_choose(n + m, x + y));
    return std::min(1.0, sum);
}

void Estimates::expired(Timer timer, const Evidence &started, Time now) {
    if (started.started_from > LONG_AGO && started.started_to < NEVER)
        add(timer == Timer::t200 ? t200s : t203s, {now - started.started_to, now - started.started_from});
}

void Estimates::sent(const Frame &frame) {
    all++;
    bool asks = frame.is_command && frame.pf && frame.kind != Kind::i;
    bool is_same = asks && last.is_command && last.pf && last.kind == frame.kind;
    run = is_same ? run + 1 : 0;
    if (asks)
        repeats = std::max(repeats, run);
    last = frame;
    if (frame.kind == Kind::sabme || frame.kind == Kind::ua)
        next_ns = 0;
    if (frame.kind != Kind::i)
        return;
    if (next_ns != UNKNOWN && frame.ns != next_ns && distance(next_ns, frame.ns) < 64)
        sent_again++;
    else
        next_ns = after(frame.ns);
}

void Estimates::count_losses(const Possible &likeliest) {
    for (size_t i = 0; i < TOWARDS; i++)
        lost_there[i] += likeliest.e.lost[i];
}

std::vector<std::string> Estimates::unlikely() const {
    std::vector<std::string> found;
    for (size_t kind = 0; kind < JUDGED; kind++) {
        long n = toward_end[kind], x = lost_there[kind], m = 0, y = 0;
        for (size_t other = 0; other < COMPARED; other++)
            if (other != kind) {
                m += toward_end[other];
                y += lost_there[other];
            }
        double chance = by_chance(x, n, y, m);
        if (chance >= LEAST_CHANCE || m < FEWEST_OTHERS || static_cast<double>(x) < LEAST_SHARE * static_cast<double>(n))
            continue;
        char words[160];
        std::snprintf(words, sizeof words, "%ld of %ld %s seem not to be heard, but %ld of %ld others: by chance %.1g", x, n,
                      TOWARD_WORDS[kind], y, m, chance);
        found.push_back(words);
    }
    return found;
}

long Estimates::lost() const { return lost_there[0] + lost_there[1] + lost_there[2] + lost_there[3]; }

long Estimates::all_toward() const { return toward_end[0] + toward_end[1] + toward_end[2] + toward_end[3]; }

bool Estimates::median(const std::vector<Between> &found, Between &length, size_t &count) {
    count = found.size();
    if (found.empty())
        return false;
    std::vector<Time> least, most;
    for (const Between &it : found) {
        least.push_back(it.least);
        most.push_back(it.most);
    }
    std::sort(least.begin(), least.end());
    std::sort(most.begin(), most.end());
    length = {least[count / 2], most[count / 2]};
    return true;
}

} // namespace monitor
