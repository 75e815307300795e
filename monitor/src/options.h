// options.h: the words of the command line (lapd-monitor(1)).
#ifndef MONITOR_OPTIONS_H
#define MONITOR_OPTIONS_H

#include <string>

#include "settings.h"

namespace monitor {

struct Options {
    Settings settings;
    std::string file, live, annotate;
    bool is_json = false, is_quiet = false;
    bool wants_help = false, wants_version = false;
};

extern const char *const USAGE;
extern const char *const HELP;

// Throws Fault with why the words are wrong.
Options read_options(int count, char **words);

} // namespace monitor

#endif
