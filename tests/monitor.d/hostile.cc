// hostile.cc: changed captures by the hundred thousand, through all that lapd-monitor does with one, in one process.
//
//     hostile COUNT SEED FILE..
//
// Each capture is one of FILE with octets changed, cut out, doubled or swapped, or noise. It is refused, or judged; with a
// sanitizer nothing else may be. The number that was judged is printed: if it is none, the changes were too many.
#include <cstdio>
#include <cstdlib>
#include <cstring>
#include <sys/mman.h>
#include <unistd.h>

#include "bytes.h"
#include "output.h"

using namespace monitor;

static uint64_t state;

static uint32_t chance(size_t below) {
    uint64_t it = state += 0x9E3779B97F4A7C15u;
    it = (it ^ it >> 30) * 0xBF58476D1CE4E5B9u;
    it = (it ^ it >> 27) * 0x94D049BB133111EBu;
    return below == 0 ? 0 : static_cast<uint32_t>((it ^ it >> 31) % below);
}

static void change(Octets &octets) {
    static const uint8_t often[] = {0, 1, 0xFF, 0x7F, 0x80, '\n', ' ', '0'};
    for (uint32_t changes = chance(12); changes > 0 && !octets.empty(); changes--) {
        size_t at = chance(chance(2) == 0 ? octets.size() : std::min<size_t>(octets.size(), 256));
        auto place = octets.begin() + static_cast<std::ptrdiff_t>(at);
        size_t few = std::min<size_t>(1 + chance(20), octets.size() - at);
        switch (chance(6)) {
        case 0: *place = static_cast<uint8_t>(chance(256)); break;
        case 1: *place = often[chance(sizeof often)]; break;
        case 2: *place = static_cast<uint8_t>(*place ^ 1u << chance(8)); break;
        case 3: octets.erase(place, place + static_cast<std::ptrdiff_t>(few)); break;
        case 4: {
            Octets copy(place, place + static_cast<std::ptrdiff_t>(few));
            octets.insert(place, copy.begin(), copy.end());
            break;
        }
        default: octets.resize(chance(8) == 0 ? at : octets.size());
        }
    }
}

static Settings any_settings() {
    Settings it;
    it.k_network = it.k_user = static_cast<int>(chance(8));
    it.known.n200 = static_cast<int>(chance(5)) - 1;
    it.known.t200 = chance(3) * 700 * MILLISECOND;
    it.known.t203 = chance(3) * 7000 * MILLISECOND;
    it.tap = static_cast<Tap>(chance(3));
    it.readings = static_cast<Readings>(chance(3));
    it.goes_down = chance(4) == 0;
    it.known.most = 200;
    return it;
}

// Judges a file with all outputs. False: it is refused.
static bool judge(const std::string &name) {
    static FILE *nowhere = std::fopen("/dev/null", "w");
    bool is_whole = true;
    Settings settings = any_settings();
    Judge judge(settings);
    std::unique_ptr<Output> outputs[] = {text_output(nowhere), json_output(nowhere), annotated_output("/dev/null")};
    AllTold told;
    try {
        std::unique_ptr<Input> input = open_file(name);
        for (Captured it; input->next(it);) {
            told.clear();
            judge.packet(it, told);
            for (auto &output : outputs)
                output->packet(it, told);
        }
    } catch (const Fault &) {
        is_whole = false;
    }
    told.clear();
    judge.ends(told);
    for (auto &output : outputs)
        output->ends(told, {judge, true});
    return is_whole || judge.frames > 0;
}

int main(int count, char **words) {
    if (count < 4) {
        std::fputs("usage: hostile COUNT SEED FILE..\n", stderr);
        return 2;
    }
    std::vector<Octets> files;
    for (int i = 3; i < count; i++) {
        files.emplace_back();
        Bytes(words[i]).take(1 << 20, files.back());
    }
    state = std::strtoull(words[2], nullptr, 10);
    long judged = 0, all = std::atol(words[1]);
    for (long i = 0; i < all; i++) {
        Octets octets = files[chance(files.size())];
        if (chance(50) == 0)
            for (uint8_t &it : octets)
                it = static_cast<uint8_t>(chance(256));
        change(octets);
        int file = memfd_create("capture", 0);
        if (file < 0 || write(file, octets.data(), octets.size()) != static_cast<ssize_t>(octets.size()))
            return 2;
        judged += judge("/proc/self/fd/" + std::to_string(file));
        close(file);
    }
    std::printf("%ld of %ld changed captures were judged, the others refused\n", judged, all);
    return judged == 0;
}
