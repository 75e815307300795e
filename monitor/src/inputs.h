// inputs.h: the kinds of captures, each from its first octet on.
#ifndef MONITOR_INPUTS_H
#define MONITOR_INPUTS_H

#include "bytes.h"

namespace monitor {

std::unique_ptr<Input> open_pcap(std::unique_ptr<Bytes> from);
std::unique_ptr<Input> open_pcapng(std::unique_ptr<Bytes> from);
std::unique_ptr<Input> open_text(std::unique_ptr<Bytes> from);
std::unique_ptr<Input> open_misdn(const std::string &words);
std::unique_ptr<Input> open_dahdi(const std::string &words);

} // namespace monitor

#endif
