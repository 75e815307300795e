// output_text.cc: a line for each thing that is told. See output.h.
#include <cinttypes>

#include "output.h"

namespace monitor {

const char *name_of_end(bool is_network) { return is_network ? "network" : "user"; }

std::string in_words(const Told &told) {
    const Verdict &verdict = told.verdict;
    std::string words = std::string(name_of(verdict.what)) + ": ";
    if (!told.frame.empty())
        words += "sent " + told.frame + ": ";
    words += verdict.why;
    if (verdict.is_missed)
        words += " (or the tap missed a frame)";
    if (!verdict.possible.empty())
        words += "; it was in " + verdict.possible;
    if (!told.note.empty())
        words += "; " + told.note;
    return words;
}

namespace {

constexpr long MOST_ALIKE = 10; // of what is told of one end in the same words

class TextOutput : public Output {
  public:
    explicit TextOutput(FILE *file) : to(file) {}

    void packet(const Captured &, const AllTold &told) override {
        for (const Told &it : told)
            tell(it);
    }

    void ends(const AllTold &told, const Summary &summary) override {
        for (const Told &it : told)
            tell(it);
        if (summary.wants_table)
            write_table(to, summary.judge);
    }

  private:
    void tell(const Told &it) {
        std::string end = "line " + std::to_string(it.line) + " " + in_words(it.address) + " " + name_of_end(it.is_network);
        long &times = alike[end + name_of(it.verdict.what) + it.verdict.why];
        if (++times > MOST_ALIKE)
            return;
        const char *more = times == MOST_ALIKE ? "; from now on the like is only counted" : "";
        std::fprintf(to, "%" PRId64 ".%03" PRId64 " s frame %ld %s: %s%s\n", it.at / 1000000, it.at / 1000 % 1000, it.number,
                     end.c_str(), in_words(it).c_str(), more);
        std::fflush(to);
    }

    FILE *to;
    std::map<std::string, long> alike;
};

} // namespace

std::unique_ptr<Output> text_output(FILE *to) { return std::make_unique<TextOutput>(to); }

} // namespace monitor
