// rows.cc: the rows of lapd-monitor against the machine: a card of the library, to which events at random happen.
//
//     rows SEED RUNS [k|n200|reading]
//
// After each event the card itself tells, by copies of it (cards.h), which frames it may send next, and in which states it may be.
// Of each frame near those it is asked whether the monitor lets an end send it then: exactly those that the card may send. As time
// passes, the states that the monitor has for possible are exactly those that the card may be in. What was played is printed:
// the events in the words of crates/tool_tables/stdout, each with the state, the reading, and how often; and the monitor's rows
// that were so compared. Of the state is also said whether a release is owed, as the columns there do.
// With a third word the monitor is told a wrong window, a wrong N200 or the other reading: it has to be noticed.
// Status 1: something differs.
//
// Of three runs one has its tap at the card; in one frames toward the card are lost; and in one its link is also deactivated.
#include <cstdio>
#include <cstdlib>
#include <cstring>
#include <tuple>

#include "cards.h"
#include "watch.h"

using namespace monitor;

namespace {

constexpr Time STEP = 10'000 * MILLISECOND, DELAY = 1'000 * MILLISECOND;
constexpr int STEPS = 60, MOST_TOLD = 5;
constexpr size_t MOST_IMAGES = 60;

uint64_t chances;

uint32_t chance(size_t below) {
    uint64_t it = chances += 0x9E3779B97F4A7C15u;
    it = (it ^ it >> 30) * 0xBF58476D1CE4E5B9u;
    it = (it ^ it >> 27) * 0x94D049BB133111EBu;
    return static_cast<uint32_t>((it ^ it >> 31) % below);
}

struct Counts {
    long allowed = 0, refused = 0, states = 0, faults = 0;
    std::map<std::string, long> played;
    std::set<std::string> rows;
} counts;

using Key = std::tuple<int, bool, bool, uint8_t, uint8_t>;

Key key_of(const Frame &it) {
    bool has_ns = it.kind == Kind::i, has_nr = has_number(it.kind);
    return {static_cast<int>(it.kind), it.is_command, it.pf, has_ns ? it.ns : uint8_t{0}, has_nr ? it.nr : uint8_t{0}};
}

std::string in_words_of_state(const State &it) {
    Possible words;
    words.s = it;
    return in_words(words, it.heard);
}

// The column of crates/tool_tables/stdout: as "5, release".
std::string column_of(const State &it) { return std::to_string(it.state) + (it.owed ? ", release" : ""); }

// ---- Frames that come ----

struct Heard {
    std::string words; // as the printed tables name it, without numbers
    Octets octets;
};

Octets unnumbered(uint8_t control, bool pf) { return {0, 1, static_cast<uint8_t>(control | (pf ? 0x10 : 0))}; }

const struct {
    const char *name;
    uint8_t control;
    bool is_command;
    size_t information;
} UNNUMBERED[] = {{"SABME", 0x6F, true, 0}, {"DISC", 0x43, true, 0}, {"UA", 0x63, false, 0},  {"DM", 0x0F, false, 0},
                  {"FRMR", 0x87, false, 5}, {"UI", 0x03, true, 1},   {"XID", 0xAF, true, 1}};

Heard any_unnumbered() {
    const auto &it = UNNUMBERED[chance(std::size(UNNUMBERED))];
    bool pf = chance(2) == 0;
    Octets octets = unnumbered(it.control, pf);
    octets[0] = it.is_command;
    octets.resize(octets.size() + it.information);
    return {std::string(it.name) + (it.is_command ? " P=" : " F=") + (pf ? "1" : "0"), octets};
}

Octets longer(Octets octets, size_t by) {
    octets.resize(octets.size() + by);
    return octets;
}

Heard any_malformed() {
    Octets octets = unnumbered(0x6F, true);
    switch (chance(7)) {
    case 0: return {"UI over N201", longer({1, 1, 0x03}, 261)};
    case 1: return {"UI F=0", unnumbered(0x03, false)};
    case 2: return {"control field undefined", chance(2) == 0 ? unnumbered(0x33, false) : Octets{1, 1, 0x0D, 0}};
    case 3: return {"control field undefined", chance(2) == 0 ? octets : Octets{0, 1, 0, 0}}; // a command's as a response
    case 4: return {"frame of wrong size", longer({1, 1, 0x7F}, 2)};
    case 5: return {"frame of wrong size", longer({1, 1, 0x01, 0}, 1)};
    default: return {"I over N201", longer({1, 1, 0, 0}, 261)};
    }
}

// Numbers are those of the state, or beside them.
Heard any_numbered(const State &it) {
    uint8_t nrs[] = {it.va, it.vs, it.vs, it.vs, static_cast<uint8_t>((it.va + 1) & 127), static_cast<uint8_t>((it.vs + 1) & 127),
                     static_cast<uint8_t>((it.va + 127) & 127)};
    uint8_t nr = nrs[chance(chance(6) == 0 ? std::size(nrs) : 5)], vr = it.vr;
    if (nr == nrs[4] && it.va == it.vs)
        nr = it.va;
    bool pf = chance(2) == 0;
    uint8_t last = static_cast<uint8_t>(nr << 1 | pf);
    if (chance(2) == 0) {
        uint8_t ns = static_cast<uint8_t>((vr + (chance(3) == 0 ? chance(2) == 0 ? 1 : 127 : 0)) & 127);
        return {std::string("I P=") + (pf ? "1" : "0"), {1, 1, static_cast<uint8_t>(ns << 1), last, 'i'}};
    }
    const char *names[] = {"RR", "RNR", "REJ"};
    uint32_t which = chance(3);
    bool is_command = chance(2) == 0;
    return {std::string(names[which]) + (is_command ? " P=" : " F=") + (pf ? "1" : "0"),
            {is_command, 1, static_cast<uint8_t>(1 + 4 * which), last}};
}

// So that most links are up.
Heard any_heard(const State &it) {
    uint32_t kind = chance(it.is_up() ? 16 : 4);
    if (it.state == 4 && kind == 0 && chance(2) == 0)
        return {"SABME P=1", {1, 1, 0x7F}};
    if ((it.state == 5 || it.state == 6) && kind == 0 && chance(2) == 0)
        return {"UA F=1", {0, 1, 0x73}};
    return kind == 0 ? any_malformed() : kind < 3 ? any_unnumbered() : any_numbered(it);
}

// ---- A run ----

class Run {
  public:
    Run(uint64_t seed, const std::string &wrong);
    void plays();

  private:
    void compare(const std::map<Octets, Answer> &answers);
    void compare_states();
    void differs(const std::string &what);
    void hears();
    void does();
    void sends_all();
    void sends(const Octets &octets, const Image &after);
    void count(const std::string &event);
    void count_rows(const Tapped *heard, const Frame *sent) const;
    Frame read(const Octets &octets) const;
    std::vector<Frame> near(const std::map<Octets, Answer> &answers) const;

    uint64_t seed;
    lapd_config config = LAPD_PRIMARY_RATE;
    Terms terms;
    Image truth;
    Cards cards;
    Watch watch;
    Time now = 0;
    std::string latest;
    bool is_over = false;
};

lapd_config any_config(uint64_t seed) {
    lapd_config it = LAPD_PRIMARY_RATE;
    it.k = it.k16 = static_cast<uint16_t>(1 + chance(3));
    it.n200 = static_cast<uint16_t>(chance(3));
    it.control = 16;
    it.side = seed % 2 == 0 ? LAPD_NETWORK : LAPD_USER;
    it.reading = seed / 2 % 2 == 0 ? LAPD_PROFILE : LAPD_ANNEX_B;
    return it;
}

Ways ways_of(uint64_t seed) { return {seed % 3 != 0, seed % 3 == 2}; }

Terms terms_of(const lapd_config &config, const Ways &ways, const std::string &wrong) {
    Terms it;
    it.k = config.k + (wrong == "k" ? 1 : 0);
    it.n200 = config.n200 + (wrong == "n200" ? 1 : 0);
    it.reading = (config.reading == LAPD_ANNEX_B) == (wrong != "reading") ? Reading::annex_b : Reading::profile;
    it.delay = DELAY;
    it.loses = ways.loses;
    it.goes_down = ways.goes_down;
    return it;
}

Run::Run(uint64_t its_seed, const std::string &wrong)
    : seed(its_seed), config(any_config(its_seed)), terms(terms_of(config, ways_of(seed), wrong)), truth(Card(config).image()),
      cards(truth, ways_of(seed)), watch(terms, true) {}

Frame Run::read(const Octets &octets) const {
    Address address;
    Frame frame;
    if (!read_frame(octets, config.side == LAPD_NETWORK, terms.n201, address, frame))
        std::abort();
    return frame;
}

void Run::differs(const std::string &what) {
    is_over = true;
    if (counts.faults++ < MOST_TOLD)
        std::printf("rows: seed %llu, after %s, %s: %s\n", static_cast<unsigned long long>(seed), latest.c_str(),
                    in_words_of_state(state_of(truth)).c_str(), what.c_str());
}

void Run::count(const std::string &event) {
    latest = event;
    const char *reading = config.reading == LAPD_ANNEX_B ? "|annex B" : "|profile";
    counts.played[event + "|" + column_of(state_of(truth)) + reading]++;
}

// The rows by which the monitor goes, of a state in which the card is.
void Run::count_rows(const Tapped *heard, const Frame *sent) const {
    Rows rows(terms);
    Outcomes all;
    Possible it;
    it.s = state_of(truth);
    if (heard != nullptr)
        rows.heard(it, *heard, false, all);
    if (sent != nullptr)
        rows.own(it, *sent, now, false, all);
    for (const Outcome &outcome : all) {
        Possible after = outcome.after;
        if (sent == nullptr || (outcome.guards | differences(outcome.frame, *sent, after)) == 0)
            counts.rows.insert(outcome.row);
    }
}

// Of each kind of frame both ways, with P/F 0 and 1, and with the numbers of the state and those beside them; and what is answered.
std::vector<Frame> Run::near(const std::map<Octets, Answer> &answers) const {
    std::vector<Frame> all;
    State it = state_of(truth);
    auto beside = [](uint8_t number, int by) { return static_cast<uint8_t>((number + 128 + by) & 127); };
    const std::vector<uint8_t> all_ns = {it.va, beside(it.vs, -1), it.vs, beside(it.vs, 1)};
    for (int kind = 0; kind <= static_cast<int>(Kind::undefined); kind++) {
        Kind its = static_cast<Kind>(kind);
        if (its == Kind::ui || its == Kind::xid) // of layer 3 or management, at any time
            continue;
        for (int bits = 0; bits < 4; bits++)
            for (int by_nr : has_number(its) ? std::vector<int>{-1, 0, 1} : std::vector<int>{0})
                for (uint8_t ns : its == Kind::i ? all_ns : std::vector<uint8_t>{0})
                    all.push_back({its, (bits & 1) != 0, (bits & 2) != 0, ns, beside(it.vr, by_nr), 0});
    }
    for (const auto &[octets, answer] : answers)
        all.push_back(read(octets));
    return all;
}

void Run::compare(const std::map<Octets, Answer> &answers) {
    std::set<Key> wanted;
    for (const auto &[octets, answer] : answers)
        wanted.insert(key_of(read(octets)));
    for (const Frame &frame : near(answers)) {
        bool is_allowed = watch.may_send(frame, now), is_answer = wanted.count(key_of(frame)) > 0;
        counts.allowed += is_allowed && is_answer;
        counts.refused += !is_allowed && !is_answer;
        if (is_allowed != is_answer)
            differs(in_words(frame) + (is_answer ? " is sent, and not allowed" : " is allowed, and not sent"));
    }
}

// The states that are possible, without what is not heard yet.
void Run::compare_states() {
    std::set<uint64_t> wanted, had;
    for (const Image &it : cards.all())
        wanted.insert(state_of(it).key());
    for (State it : watch.states_closed(now)) {
        it.heard = 0;
        had.insert(it.key());
    }
    counts.states += static_cast<long>(wanted.size());
    if (wanted != had)
        differs(std::to_string(had.size()) + " states are possible, and the card may be in " + std::to_string(wanted.size()));
}

void Run::sends(const Octets &octets, const Image &after) {
    std::map<Octets, Answer> answers = cards.answers();
    compare(answers);
    Frame frame = read(octets);
    if (!has_control(truth))
        count_rows(nullptr, &frame);
    Verdicts told;
    watch.sends(frame, now, told);
    for (const Verdict &it : told)
        differs(in_words(frame) + " is sent: " + name_of(it.what) + ": " + it.why);
    cards.sent(answers[octets]);
    truth = after;
    now += MILLISECOND;
}

// All that waits is sent at once.
void Run::sends_all() {
    for (Octets frame; !is_over;) {
        Card card(truth);
        if (!card.next(frame))
            break;
        sends(frame, card.image());
    }
}

void Run::hears() {
    Heard it = any_heard(state_of(truth));
    it.octets[0] = static_cast<uint8_t>((it.octets[0] != 0) == (config.side != LAPD_NETWORK) ? 2 : 0);
    count(it.words);
    Tapped tapped;
    Address address;
    read_frame(it.octets, config.side != LAPD_NETWORK, terms.n201, address, tapped.frame);
    tapped.at = now;
    count_rows(&tapped, nullptr);
    Verdicts told;
    watch.hears(tapped, told);
    for (const Verdict &verdict : told)
        differs(std::string(name_of(verdict.what)) + ": " + verdict.why);
    cards.hears(it.octets);
    now += MILLISECOND;
    if (terms.loses && chance(4) == 0)
        return;
    Card card(truth);
    card.hears(it.octets);
    truth = card.image();
}

// So that a release is owed often.
const Unseen &any_unseen(const State &it) {
    bool is_release = it.state == 5 && !it.owed && chance(2) == 0;
    return is_release ? RELEASED : UNSEEN[chance(UNSEEN.size())];
}

// Something that the tap does not see.
void Run::does() {
    const Unseen &it = terms.goes_down && chance(10) == 0 ? DEACTIVATED : any_unseen(state_of(truth));
    Card card(truth);
    card.happens(it);
    count(it.words);
    Image after = card.image();
    Octets octets;
    if (Card(after).next(octets)) {
        Frame frame = read(octets);
        count_rows(nullptr, &frame);
    }
    truth = after;
}

void Run::plays() {
    for (int step = 0; step < STEPS && !is_over && cards.all().size() <= MOST_IMAGES; step++) {
        chance(3) == 0 ? does() : hears();
        sends_all();
        if (is_over)
            return;
        compare(cards.answers());
        now += STEP;
        cards.settle();
        compare_states();
        compare(cards.answers());
    }
}

} // namespace

int main(int count, char **words) {
    if (count < 3) {
        std::fputs("usage: rows SEED RUNS [k|n200|reading]\n", stderr);
        return 2;
    }
    uint64_t seed = std::strtoull(words[1], nullptr, 10);
    for (long run = 0; run < std::atol(words[2]); run++) {
        chances = (seed + static_cast<uint64_t>(run)) * 0xD1B54A32D192ED03u;
        chances = (static_cast<uint64_t>(chance(1u << 31)) << 31) + chance(1u << 31);
        Run(seed + static_cast<uint64_t>(run), count > 3 ? words[3] : "").plays();
    }
    for (const auto &[event, times] : counts.played)
        std::printf("%s|%ld\n", event.c_str(), times);
    for (const std::string &row : counts.rows)
        std::printf("row|%s\n", row.c_str());
    std::printf("rows: %ld answers are allowed, and %ld other frames are not; %ld states; %ld runs differ\n", counts.allowed,
                counts.refused, counts.states, counts.faults);
    return counts.faults > 0;
}
