// main.cc: lapd-monitor. It reads a capture, or a line, and tells what it judges of each frame.
#include <csignal>
#include <cstdio>
#include <unistd.h>

#include "options.h"
#include "output.h"

namespace monitor {

namespace {

constexpr const char *VERSION = MONITOR_VERSION;
constexpr int ALL_WELL = 0, DEPARTED = 1, FAULT = 2;
constexpr long BETWEEN_PROGRESS = 1 << 15;

volatile std::sig_atomic_t is_ended = 0;

// Tells on a terminal how far a long capture is read.
class Progress {
  public:
    Progress(const Input &its_input, bool is_wanted) : input(its_input), is_shown(is_wanted && isatty(STDERR_FILENO) != 0) {}
    ~Progress() { clear(); }

    void packet(long number) {
        if (!is_shown || number % BETWEEN_PROGRESS != 0)
            return;
        double share = input.share();
        if (share >= 0)
            std::fprintf(stderr, "\r%3.0f %%, %ld packets", 100 * share, number);
        else
            std::fprintf(stderr, "\r%ld packets", number);
        is_there = true;
    }
    void clear() {
        if (is_there)
            std::fputs("\r                                \r", stderr);
        is_there = false;
    }

  private:
    const Input &input;
    bool is_shown, is_there = false;
};

int run(const Options &options) {
    std::unique_ptr<Input> input = options.live.empty() ? open_file(options.file) : open_live(options.live);
    std::vector<std::unique_ptr<Output>> outputs;
    outputs.push_back(options.is_json ? json_output(stdout) : text_output(stdout));
    if (!options.annotate.empty())
        outputs.push_back(annotated_output(options.annotate));
    Judge judge(options.settings);
    Captured it;
    AllTold told;
    std::string fault;
    Progress progress(*input, !options.is_quiet);
    try {
        while (is_ended == 0 && input->next(it)) {
            told.clear();
            judge.packet(it, told);
            if (!told.empty())
                progress.clear();
            for (auto &output : outputs)
                output->packet(it, told);
            progress.packet(judge.packets);
        }
    } catch (const Fault &what) { // what was read before it is judged
        fault = what.what();
    }
    progress.clear();
    told.clear();
    judge.ends(told);
    for (auto &output : outputs)
        output->ends(told, {judge, !options.is_quiet});
    if (std::fflush(stdout) != 0 || std::ferror(stdout) != 0)
        throw Fault("standard output can't be written");
    if (!fault.empty())
        throw Fault(fault);
    return judge.has_departures() ? DEPARTED : ALL_WELL;
}

int begin(int count, char **words) {
    Options options;
    try {
        options = read_options(count, words);
    } catch (const Fault &fault) {
        std::fprintf(stderr, "lapd-monitor: %s\n%s", fault.what(), USAGE);
        return FAULT;
    }
    if (options.wants_help || options.wants_version) {
        std::printf(options.wants_help ? "%s\n%s" : "lapd-monitor %s\n", options.wants_help ? USAGE : VERSION, HELP);
        return ALL_WELL;
    }
    std::signal(SIGINT, [](int) { is_ended = 1; });
    std::signal(SIGTERM, [](int) { is_ended = 1; });
    try {
        return run(options);
    } catch (const std::exception &fault) {
        std::fprintf(stderr, "lapd-monitor: %s\n", fault.what());
        return FAULT;
    }
}

} // namespace

} // namespace monitor

int main(int count, char **words) { return monitor::begin(count, words); }
