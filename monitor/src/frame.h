// frame.h: a frame as an observer reads it (docs/MACHINE.md, "Address and control"), and the moments of a capture.
#ifndef MONITOR_FRAME_H
#define MONITOR_FRAME_H

#include <cstdint>
#include <string>
#include <vector>

namespace monitor {

using Octets = std::vector<uint8_t>;

// A moment or a length of time, in microseconds.
using Time = int64_t;
constexpr Time NEVER = INT64_MAX / 4;
constexpr Time LONG_AGO = -NEVER;
constexpr Time MILLISECOND = 1000;

// What a frame is. The supervisory ones stand together, after I. The last three are no frames of the tables: `over_n201` is an
// I command with too long an information field, and `reset` says that a link may have begun anew here.
enum class Kind : uint8_t { i, rr, rnr, rej, sabme, disc, ua, dm, frmr, ui, xid, undefined, wrong_size, over_n201, reset };
constexpr int KINDS = 15;

constexpr bool has_number(Kind kind) { return kind <= Kind::rej; }
constexpr bool is_supervisory(Kind kind) { return kind >= Kind::rr && kind <= Kind::rej; }
constexpr bool is_malformed(Kind kind) { return kind >= Kind::undefined && kind <= Kind::over_n201; }

struct Frame {
    Kind kind = Kind::undefined;
    bool is_command = false;
    bool pf = false;        // the P/F bit
    uint8_t ns = 0, nr = 0; // N(S) of I, N(R) of I, RR, RNR and REJ
    int length = 0;         // octets of information
};

struct Address {
    int sapi, tei;
    bool operator<(const Address &it) const { return sapi != it.sapi ? sapi < it.sapi : tei < it.tei; }
};

// Reads a frame without its check, which the network or the user sent. False: it has no address, or no control field.
bool read_frame(const Octets &octets, bool is_from_network, int n201, Address &address, Frame &frame);

const char *name_of(Kind kind);

// As in "RR response F=1 N(R)=3", and in "SAPI 0 TEI 64".
std::string in_words(const Frame &frame);
std::string in_words(const Address &address);

} // namespace monitor

#endif
