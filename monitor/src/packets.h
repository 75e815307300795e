// packets.h: finds the LAPD frame in a packet of a capture, by the capture's link type.
#ifndef MONITOR_PACKETS_H
#define MONITOR_PACKETS_H

#include "captured.h"

namespace monitor {

// Link types (tcpdump.org/linktypes.html).
constexpr int LINUX_LAPD = 177, LAPD_ALONE = 203;

// Sets what is told of the frame in it.packet, whose link type is it.link_type: that it is one, its octets, direction and line.
// Of type 203 the direction is in it.flags, as pcapng has them; `outbound` says whose frames those are that went out.
void find_frame(Captured &it, Origin outbound);

// Whether a packet of this link type may have frames in it. If not, why it is refused.
bool is_known(int link_type, std::string &why);

// Direction of a pcapng packet's flags: 1 inbound, 2 outbound, 0 not known.
constexpr uint32_t direction(uint32_t flags) { return flags & 3; }

// If the kind of a frame says who sent it, its sender: an I-frame is a command, UA a response, and so on (clause 3.3.2).
Origin sender_by_kind(const Octets &octets);

} // namespace monitor

#endif
