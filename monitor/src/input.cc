// input.cc: which kind of capture it is. See captured.h.
#include <cctype>

#include "inputs.h"

namespace monitor {

std::unique_ptr<Input> open_file(const std::string &name) {
    auto bytes = std::make_unique<Bytes>(name);
    switch (int first = bytes->peek()) {
    case 0xA1: // the first octets of pcap, of either order, in microseconds or nanoseconds
    case 0xD4:
    case 0x4D:
        return open_pcap(std::move(bytes));
    case 0x0A:
        return open_pcapng(std::move(bytes));
    case -1:
        throw Fault(bytes->name() + ": it is empty");
    default:
        if (first != '#' && first != ' ' && std::isdigit(first) == 0)
            throw Fault(bytes->name() + ": it is neither pcap, pcapng nor text of lines MS N|U HEX");
        return open_text(std::move(bytes));
    }
}

} // namespace monitor
