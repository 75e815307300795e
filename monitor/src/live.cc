// live.cc: which kind of device it is. See captured.h.
#include "inputs.h"

namespace monitor {

std::unique_ptr<Input> open_live(const std::string &name) {
    size_t colon = name.find(':');
    std::string kind = name.substr(0, colon), words = colon == std::string::npos ? "" : name.substr(colon + 1);
    if (kind == "misdn")
        return open_misdn(words);
    if (kind == "dahdi")
        return open_dahdi(words);
    throw Fault("--live wants misdn:CARD[:nt] or dahdi:NETWORK,USER, not \"" + name + "\"");
}

} // namespace monitor
