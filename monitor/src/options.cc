// options.cc: see options.h.
#include "options.h"

#include <cctype>
#include <cerrno>
#include <cstdlib>
#include <functional>

#include "captured.h"

namespace monitor {

const char *const USAGE =
    "usage: lapd-monitor [--k N] [--k-user N] [--n200 N] [--n201 N] [--t200 MS] [--t203 MS] [--delay MS] [--wait MS]\n"
    "                    [--tap network|user|between] [--reading profile|annex-b|both] [--down]\n"
    "                    [--json] [--quiet] [--annotate OUT.pcapng] FILE|-|--live DEVICE\n";

const char *const HELP =
    "Reads both directions of D-channels, and tells which end of a link sends a frame that the tables of Q.921 do not have.\n"
    "\n"
    "  FILE        a pcap of link type 177, a pcapng of 177 or 203 with directions, either with GSMTAP over UDP, or text of\n"
    "              lines \"MS N|U HEX\" (N: the network sent the frame); - is standard input\n"
    "  --live      misdn:CARD[:nt] or dahdi:NETWORK,USER, two channels that hear the network and the user\n"
    "\n"
    "What is not given is not known, and nothing is judged by it:\n"
    "  --k N       the window of both ends; --k-user N that of the user's end, if it is another\n"
    "  --n200 N    how often a command is repeated; --n201 N the longest information field (260)\n"
    "  --t200 MS, --t203 MS  lengths of the timers\n"
    "  --delay MS  from the tap of a frame to the tap of what it makes its receiver send, at most (1500)\n"
    "  --wait MS   from the making of a frame to its tap, at most (300, or the delay if that is less)\n"
    "  --tap END   where the tap is: what is tapped at an end is heard there; by default between, and frames may be lost\n"
    "  --reading R the profile, annex-b, or both: then the table at the end says which fits\n"
    "  --down      links may be deactivated at any time, as their line goes down\n"
    "\n"
    "  --json      lines of JSON in place of text\n"
    "  --quiet     no table at the end, and no progress\n"
    "  --annotate OUT.pcapng  a copy of the capture with what was told as comments\n"
    "  --help, --version\n"
    "\n"
    "Exit status: 0, 1 if there were departures, 2 after a fault.\n";

namespace {

long number(const std::string &option, const std::string &word, long least, long most) {
    errno = 0;
    char *end = nullptr;
    long it = std::strtol(word.c_str(), &end, 10);
    bool is_number = !word.empty() && std::isdigit(static_cast<unsigned char>(word[0])) != 0 && *end == '\0' && errno == 0;
    if (!is_number || it < least || it > most)
        throw Fault(option + " wants a number from " + std::to_string(least) + " to " + std::to_string(most) + ", not \"" + word
                    + "\"");
    return it;
}

// One of some words: its place.
size_t one_of(const std::string &option, const std::string &word, std::initializer_list<const char *> words) {
    size_t place = 0;
    std::string all;
    for (const char *it : words) {
        if (word == it)
            return place;
        all += (place++ == 0 ? "" : ", ") + std::string(it);
    }
    throw Fault(option + " wants one of " + all + ", not \"" + word + "\"");
}

Time milliseconds(const std::string &option, const std::string &word) { return number(option, word, 1, 3600000) * MILLISECOND; }

// The words of an option that has a value.
bool take_value(Options &options, const std::string &option, const std::function<std::string()> &value) {
    Settings &settings = options.settings;
    if (option == "--k")
        settings.k_network = static_cast<int>(number(option, value(), 1, 127));
    else if (option == "--k-user")
        settings.k_user = static_cast<int>(number(option, value(), 1, 127));
    else if (option == "--n200")
        settings.known.n200 = static_cast<int>(number(option, value(), 0, 20));
    else if (option == "--n201")
        settings.known.n201 = static_cast<int>(number(option, value(), 8, 4096));
    else if (option == "--t200")
        settings.known.t200 = milliseconds(option, value());
    else if (option == "--t203")
        settings.known.t203 = milliseconds(option, value());
    else if (option == "--delay")
        settings.known.delay = milliseconds(option, value());
    else if (option == "--wait")
        settings.known.wait = milliseconds(option, value());
    else if (option == "--tap")
        settings.tap = static_cast<Tap>(one_of(option, value(), {"between", "network", "user"}));
    else if (option == "--reading")
        settings.readings = static_cast<Readings>(one_of(option, value(), {"both", "profile", "annex-b"}));
    else if (option == "--annotate")
        options.annotate = value();
    else if (option == "--live")
        options.live = value();
    else
        return false;
    return true;
}

bool take_flag(Options &options, const std::string &option) {
    if (option == "--down")
        options.settings.goes_down = true;
    else if (option == "--json")
        options.is_json = true;
    else if (option == "--quiet")
        options.is_quiet = true;
    else if (option == "--help")
        options.wants_help = true;
    else if (option == "--version")
        options.wants_version = true;
    else
        return false;
    return true;
}

} // namespace

Options read_options(int count, char **words) {
    Options options;
    bool has_wait = false;
    for (int i = 1; i < count; i++) {
        std::string word = words[i], option = word.substr(0, word.find('='));
        bool is_joined = option.size() < word.size();
        auto value = [&]() -> std::string {
            if (is_joined)
                return word.substr(option.size() + 1);
            if (i + 1 >= count)
                throw Fault(option + " wants a value");
            return words[++i];
        };
        has_wait |= option == "--wait";
        if (word.size() > 1 && word[0] == '-') {
            if (!take_value(options, option, value) && (is_joined || !take_flag(options, word)))
                throw Fault("what is " + word + "?");
        } else if (!options.file.empty()) {
            throw Fault("there are two files, " + options.file + " and " + word);
        } else {
            options.file = word;
        }
    }
    Settings &settings = options.settings;
    if (!has_wait || settings.known.wait > settings.known.delay)
        settings.known.wait = std::min(settings.known.wait, settings.known.delay);
    if (settings.k_user == 0)
        settings.k_user = settings.k_network;
    if (!options.wants_help && !options.wants_version && options.file.empty() == options.live.empty())
        throw Fault("there has to be one FILE, or --live");
    return options;
}

} // namespace monitor
