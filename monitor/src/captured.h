// captured.h: frames of a capture, and where they come from.
#ifndef MONITOR_CAPTURED_H
#define MONITOR_CAPTURED_H

#include <memory>
#include <stdexcept>
#include <string>

#include "frame.h"

namespace monitor {

// Why a capture can't be read, or an output can't be written.
struct Fault : std::runtime_error {
    using std::runtime_error::runtime_error;
};

enum class Origin : uint8_t { network, user, unknown };

// A packet of a capture. Its number is its place in the capture, from 1.
struct Captured {
    Time at = 0;
    long number = 0;
    int line = 0;
    Origin from = Origin::unknown;
    bool is_frame = false;   // of LAPD, without its check; else it is only copied
    bool is_damaged = false; // at the tap
    Octets octets;           // the frame
    // As it stood in the capture: for a copy with comments. Without a link type there was none.
    int link_type = -1;
    uint32_t interface = 0, flags = 0;
    Octets packet;
    uint32_t length = 0;     // of the packet, of which `packet` may have the first octets alone
};

class Input {
  public:
    virtual ~Input() = default;
    // The next packet. False: there is none. Throws Fault.
    virtual bool next(Captured &it) = 0;
    // So much of it was read, from 0 to 1; below 0: how much there is is not known.
    virtual double share() const { return -1; }
};

// A file, of which the first octets say what it is, or standard input, if the name is "-".
std::unique_ptr<Input> open_file(const std::string &name);
// A device: "misdn:CARD" or "dahdi:CHANNEL,CHANNEL".
std::unique_ptr<Input> open_live(const std::string &name);

} // namespace monitor

#endif
