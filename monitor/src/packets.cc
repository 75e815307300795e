// packets.cc: see packets.h.
#include "packets.h"

#include "bytes.h"

namespace monitor {

namespace {

constexpr int NULL_LOOPBACK = 0, ETHERNET = 1, RAW_IP = 101, LINUX_COOKED = 113, IPV4 = 228, IPV6 = 229, LINUX_COOKED_2 = 276;
constexpr size_t PSEUDO_HEADER = 16;
constexpr uint16_t PORT_OF_GSMTAP = 4729, UDP = 17;
constexpr uint8_t ABIS = 0x02, E1_T1 = 0x13, LAPD_OF_E1 = 1;
constexpr uint32_t UPLINK = 0x4000;

// Linux's pseudo-header: whether the packet was sent to the other, and an address of one octet that says whose side it was.
void by_pseudo_header(Captured &it) {
    if (it.packet.size() < PSEUDO_HEADER)
        return;
    uint32_t type = number_of(it.packet, 0, 2, true);
    if (type != 0 && type != 4)
        return;
    bool is_sent = type == 4, is_network_side = it.packet[6] != 0;
    it.from = is_sent == is_network_side ? Origin::network : Origin::user;
    it.octets.assign(it.packet.begin() + PSEUDO_HEADER, it.packet.end());
    it.is_frame = true;
}

void by_flags(Captured &it, Origin outbound) {
    uint32_t way = direction(it.flags);
    if (way != 1 && way != 2)
        return;
    Origin inbound = outbound == Origin::network ? Origin::user : Origin::network;
    it.from = way == 2 ? outbound : inbound;
    it.octets = it.packet;
    it.is_frame = true;
}

// Where the IP packet begins, or npos.
size_t start_of_ip(const Captured &it) {
    const Octets &p = it.packet;
    auto type_at = [&](size_t at) { return p.size() >= at + 2 ? number_of(p, at, 2, true) : 0; };
    auto is_ip = [](uint32_t type) { return type == 0x0800 || type == 0x86DD; };
    switch (it.link_type) {
    case NULL_LOOPBACK: return 4;
    case ETHERNET:
        if (type_at(12) == 0x8100)
            return is_ip(type_at(16)) ? 18 : SIZE_MAX;
        return is_ip(type_at(12)) ? 14 : SIZE_MAX;
    case LINUX_COOKED: return is_ip(type_at(14)) ? 16 : SIZE_MAX;
    case LINUX_COOKED_2: return is_ip(type_at(0)) ? 20 : SIZE_MAX;
    default: return 0;
    }
}

// Where the contents of a UDP packet to GSMTAP's port begin, or npos.
size_t start_of_gsmtap(const Octets &p, size_t ip) {
    if (ip >= p.size())
        return SIZE_MAX;
    size_t udp = SIZE_MAX;
    if (p[ip] >> 4 == 4 && p.size() >= ip + 20 && p[ip + 9] == UDP && (number_of(p, ip + 6, 2, true) & 0x3FFF) == 0)
        udp = ip + 4 * static_cast<size_t>(p[ip] & 15);
    else if (p[ip] >> 4 == 6 && p.size() >= ip + 40 && p[ip + 6] == UDP)
        udp = ip + 40;
    if (udp == SIZE_MAX || udp + 8 > p.size() || number_of(p, udp + 2, 2, true) != PORT_OF_GSMTAP)
        return SIZE_MAX;
    return udp + 8;
}

// GSMTAP: version, octets of the header by four, type, time slot, ARFCN with the direction, and at 12 the kind of channel. A line
// is a time slot of a link.
void by_gsmtap(Captured &it) {
    const Octets &p = it.packet;
    size_t at = start_of_gsmtap(p, start_of_ip(it));
    if (at == SIZE_MAX || p.size() < at + 16 || p[at] != 2 || p[at + 1] < 4)
        return;
    size_t frame = at + 4 * static_cast<size_t>(p[at + 1]);
    bool is_lapd = p[at + 2] == ABIS || (p[at + 2] == E1_T1 && p[at + 12] == LAPD_OF_E1);
    if (!is_lapd || frame > p.size())
        return;
    uint32_t arfcn = number_of(p, at + 4, 2, true);
    it.from = (arfcn & UPLINK) != 0 ? Origin::user : Origin::network;
    it.line = static_cast<int>((arfcn & 0x3FFF) << 8 | p[at + 3]);
    it.octets.assign(p.begin() + static_cast<std::ptrdiff_t>(frame), p.end());
    it.is_frame = true;
}

} // namespace

bool is_known(int link_type, std::string &why) {
    switch (link_type) {
    case LINUX_LAPD: case LAPD_ALONE: case NULL_LOOPBACK: case ETHERNET: case RAW_IP: case LINUX_COOKED: case LINUX_COOKED_2:
    case IPV4: case IPV6:
        return true;
    default:
        why = "link type " + std::to_string(link_type) + " has no LAPD; 177 has (LAPD with Linux's pseudo-header), 203 in a pcapng"
            " with directions, and GSMTAP over UDP";
        return false;
    }
}

void find_frame(Captured &it, Origin outbound) {
    if (it.link_type == LINUX_LAPD)
        by_pseudo_header(it);
    else if (it.link_type == LAPD_ALONE)
        by_flags(it, outbound);
    else
        by_gsmtap(it);
}

Origin sender_by_kind(const Octets &octets) {
    if (octets.size() < 3 || (octets[0] & 1) != 0 || (octets[1] & 1) == 0)
        return Origin::unknown;
    bool is_set = (octets[0] & 2) != 0;
    switch ((octets[2] & 1) == 0 ? 0 : octets[2] & ~0x10) {
    case 0: case 0x6F: case 0x43: case 0x03: return is_set ? Origin::network : Origin::user; // commands: I, SABME, DISC, UI
    case 0x63: case 0x0F: return is_set ? Origin::user : Origin::network;                   // responses: UA, DM
    default: return Origin::unknown;
    }
}

} // namespace monitor
