// frame.cc: reads frames. See frame.h.
#include "frame.h"

namespace monitor {

namespace {

const char *const NAMES[KINDS] = {"I", "RR", "RNR", "REJ", "SABME", "DISC", "UA", "DM", "FRMR", "UI", "XID",
                                  "undefined", "wrong size", "I over N201", "reset"};

// What the third octet of a frame with one octet of control says, without its P/F bit (clause 3.6).
Kind unnumbered(uint8_t octet) {
    switch (octet & ~0x10) {
    case 0x6F: return Kind::sabme;
    case 0x43: return Kind::disc;
    case 0x03: return Kind::ui;
    case 0x63: return Kind::ua;
    case 0x0F: return Kind::dm;
    case 0x87: return Kind::frmr;
    case 0xAF: return Kind::xid;
    default: return Kind::undefined;
    }
}

constexpr bool is_command_alone(Kind kind) { return kind == Kind::sabme || kind == Kind::disc || kind == Kind::ui; }

// How many octets of information a row of the table of control fields has; -1: any (clauses 3.6.5, 3.6.11 and 3.6.12).
constexpr int size_of(Kind kind) { return kind == Kind::ui || kind == Kind::xid ? -1 : kind == Kind::frmr ? 5 : 0; }

void read_unnumbered(const Octets &octets, Frame &frame) {
    Kind kind = unnumbered(octets[2]);
    frame.pf = (octets[2] & 0x10) != 0;
    frame.length = static_cast<int>(octets.size()) - 3;
    if (kind == Kind::undefined || (kind != Kind::xid && frame.is_command != is_command_alone(kind)))
        frame.kind = Kind::undefined;
    else
        frame.kind = size_of(kind) >= 0 && frame.length != size_of(kind) ? Kind::wrong_size : kind;
}

// A frame whose control field has two octets.
void read_numbered(const Octets &octets, int n201, Frame &frame) {
    uint8_t control = octets[2];
    frame.pf = (octets[3] & 1) != 0;
    frame.nr = static_cast<uint8_t>(octets[3] >> 1);
    frame.length = static_cast<int>(octets.size()) - 4;
    if ((control & 1) == 0) {
        frame.ns = static_cast<uint8_t>(control >> 1);
        frame.kind = !frame.is_command ? Kind::undefined : frame.length > n201 ? Kind::over_n201 : Kind::i;
    } else if (control == 0x01 || control == 0x05 || control == 0x09) {
        Kind kind = control == 0x01 ? Kind::rr : control == 0x05 ? Kind::rnr : Kind::rej;
        frame.kind = frame.length == 0 ? kind : Kind::wrong_size;
    } else {
        frame.kind = Kind::undefined;
    }
}

} // namespace

bool read_frame(const Octets &octets, bool is_from_network, int n201, Address &address, Frame &frame) {
    frame = Frame{};
    if (octets.size() < 3 || (octets[0] & 1) != 0 || (octets[1] & 1) == 0)
        return false;
    bool has_one_octet = (octets[2] & 3) == 3;
    if (!has_one_octet && octets.size() < 4)
        return false;
    address = {octets[0] >> 2, octets[1] >> 1};
    frame.is_command = ((octets[0] & 2) != 0) == is_from_network;
    if (has_one_octet)
        read_unnumbered(octets, frame);
    else
        read_numbered(octets, n201, frame);
    return true;
}

std::string in_words(const Address &address) {
    return "SAPI " + std::to_string(address.sapi) + " TEI " + std::to_string(address.tei);
}

const char *name_of(Kind kind) { return NAMES[static_cast<int>(kind)]; }

std::string in_words(const Frame &frame) {
    std::string words = name_of(frame.kind);
    words += frame.is_command ? " command P=" : " response F=";
    words += frame.pf ? '1' : '0';
    if (frame.kind == Kind::i)
        words += " N(S)=" + std::to_string(frame.ns);
    if (has_number(frame.kind))
        words += " N(R)=" + std::to_string(frame.nr);
    return words;
}

} // namespace monitor
