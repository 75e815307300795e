// output_json.cc: a line of JSON for each thing that is told, and one at the end. See output.h.
#include <cinttypes>

#include "output.h"

namespace monitor {

namespace {

std::string quoted(const std::string &text) {
    std::string words = "\"";
    for (char c : text) {
        if (c == '"' || c == '\\')
            words += '\\';
        if (static_cast<unsigned char>(c) >= 0x20)
            words += c;
    }
    return words + "\"";
}

// The members of an object, one after the other.
class Object {
  public:
    Object &text(const char *name, const std::string &value) { return raw(name, quoted(value)); }
    Object &number(const char *name, int64_t value) { return raw(name, std::to_string(value)); }
    Object &truth(const char *name, bool value) { return raw(name, value ? "true" : "false"); }
    Object &raw(const char *name, const std::string &value) {
        words += (words.empty() ? "" : ", ") + quoted(name) + ": " + value;
        return *this;
    }
    std::string done() const { return "{" + words + "}"; }

  private:
    std::string words;
};

std::string seconds(Time at) {
    char words[48];
    std::snprintf(words, sizeof words, "%" PRId64 ".%06" PRId64, at / 1000000, at % 1000000);
    return words;
}

void timer(Object &object, const char *name, bool is_known, const Between &length) {
    if (is_known)
        object.raw(name, "[" + std::to_string(length.least / MILLISECOND) + ", " + std::to_string(length.most / MILLISECOND)
                             + "]");
}

std::string of_end(int line, const Address &address, bool is_network, const End &end) {
    const Estimates &its = end.estimates();
    Object it;
    it.number("line", line).number("sapi", address.sapi).number("tei", address.tei).text("end", name_of_end(is_network));
    it.number("frames", its.frames()).number("sent_again", its.repeated());
    it.number("toward", its.all_toward()).number("lost", its.lost());
    Between length{};
    size_t count = 0;
    bool is_known = its.t200(length, count);
    timer(it, "t200", is_known, length);
    is_known = its.t203(length, count);
    timer(it, "t203", is_known, length);
    it.number("n200_at_least", its.most_repeats()).number("k_at_least", its.most_outstanding());
    it.number("unexplained_by_profile_alone", end.only_unexplained(Reading::profile));
    it.number("unexplained_by_annex_b_alone", end.only_unexplained(Reading::annex_b));
    for (size_t what = 0; what < WHATS; what++)
        it.number(name_of(static_cast<What>(what)), end.counted[what]);
    return it.done();
}

class JsonOutput : public Output {
  public:
    explicit JsonOutput(FILE *file) : to(file) {}

    void packet(const Captured &, const AllTold &told) override {
        for (const Told &it : told)
            tell(it);
    }

    void ends(const AllTold &told, const Summary &summary) override {
        packet({}, told);
        Object all;
        int64_t departures = 0;
        std::string links;
        for (const auto &[number, line] : summary.judge.all_lines()) {
            for (const auto &[address, link] : line.all_links())
                for (bool is_network : {true, false}) {
                    const End &end = link.end(is_network);
                    links += (links.empty() ? "" : ", ") + of_end(number, address, is_network, end);
                    departures += end.counted[static_cast<size_t>(What::departure)];
                }
            departures += line.all_teis().counted[static_cast<size_t>(What::departure)];
        }
        all.number("packets", summary.judge.packets).number("frames", summary.judge.frames).number("departures", departures);
        std::fprintf(to, "%s\n", all.raw("ends", "[" + links + "]").done().c_str());
    }

  private:
    void tell(const Told &it) {
        Object object;
        object.raw("time", seconds(it.at)).number("frame", it.number).number("line", it.line).number("sapi", it.address.sapi);
        object.number("tei", it.address.tei).text("end", name_of_end(it.is_network)).truth("tei_management", it.is_of_teis);
        object.text("verdict", name_of(it.verdict.what)).text("sent", it.frame).text("why", it.verdict.why);
        object.truth("or_missed", it.verdict.is_missed).text("possible", it.verdict.possible).text("note", it.note);
        std::fprintf(to, "%s\n", object.done().c_str());
        std::fflush(to);
    }

    FILE *to;
};

} // namespace

std::unique_ptr<Output> json_output(FILE *to) { return std::make_unique<JsonOutput>(to); }

} // namespace monitor
