// input_text.cc: lines of text: "MS N|U HEX" is a frame without its check that the network or the user sent, "MS N|U HEX damaged"
// one that was damaged at the tap, and "MS N|U octets HEX" are octets of the line, of which frames are found. MS may have decimals.
#include <cstdlib>
#include <cstring>
#include <deque>
#include <sstream>

#include "deframer.h"
#include "inputs.h"

namespace monitor {

namespace {

constexpr size_t LONGEST_LINE = 1 << 20;
constexpr double MOST_MILLISECONDS = 1e15;

int digit(char c) {
    return c >= '0' && c <= '9' ? c - '0' : c >= 'A' && c <= 'F' ? c - 'A' + 10 : c >= 'a' && c <= 'f' ? c - 'a' + 10 : -1;
}

bool octets_of(const std::string &hex, Octets &octets) {
    octets.clear();
    for (size_t i = 0; i + 1 < hex.size(); i += 2) {
        int high = digit(hex[i]), low = digit(hex[i + 1]);
        if (high < 0 || low < 0)
            return false;
        octets.push_back(static_cast<uint8_t>(16 * high + low));
    }
    return hex.size() % 2 == 0 && !octets.empty();
}

class Text : public Input {
  public:
    explicit Text(std::unique_ptr<Bytes> from) : bytes(std::move(from)) {}

    bool next(Captured &it) override {
        std::string text;
        while (waiting.empty()) {
            if (!bytes->line(text, LONGEST_LINE))
                return false;
            lines++;
            read(text);
        }
        it = std::move(waiting.front());
        waiting.pop_front();
        return true;
    }

    double share() const override { return bytes->share(); }

  private:
    [[noreturn]] void fail(const std::string &why) const {
        throw Fault(bytes->name() + ": line " + std::to_string(lines) + ": " + why
                    + "; a line is MS N|U HEX, MS N|U HEX damaged, or MS N|U octets HEX");
    }

    void read(const std::string &text) {
        std::istringstream words(text);
        std::string at, from, what, more, rest;
        if (!(words >> at) || at[0] == '#')
            return;
        char *end = nullptr;
        double ms = std::strtod(at.c_str(), &end);
        if (*end != '\0' || !(ms >= 0 && ms <= MOST_MILLISECONDS))
            fail("its time is no number of milliseconds");
        if (!(words >> from >> what) || (from != "N" && from != "U"))
            fail("the second word is not N or U");
        words >> more;
        if (words >> rest)
            fail("it has too many words");
        Captured it;
        it.at = static_cast<Time>(ms * 1000);
        it.from = from == "N" ? Origin::network : Origin::user;
        it.is_frame = true;
        bool is_of_octets = what == "octets";
        if (!octets_of(is_of_octets ? more : what, it.octets))
            fail("its octets are not hexadecimal digits, two for each");
        if (is_of_octets)
            return deframe(it);
        if (!more.empty() && more != "damaged" && more != "D")
            fail("the last word is not \"damaged\"");
        it.is_damaged = !more.empty();
        give(it);
    }

    void deframe(const Captured &it) {
        std::unique_ptr<Deframer> &deframer = deframers[it.from == Origin::network ? 0 : 1];
        if (deframer == nullptr)
            deframer = std::make_unique<Deframer>();
        Captured frame = it;
        for (uint8_t octet : it.octets)
            if (deframer->octet(octet, frame.octets))
                give(frame);
    }

    void give(Captured it) {
        it.number = ++number;
        waiting.push_back(std::move(it));
    }

    std::unique_ptr<Bytes> bytes;
    std::unique_ptr<Deframer> deframers[2];
    std::deque<Captured> waiting;
    long lines = 0, number = 0;
};

} // namespace

std::unique_ptr<Input> open_text(std::unique_ptr<Bytes> from) { return std::make_unique<Text>(std::move(from)); }

} // namespace monitor
