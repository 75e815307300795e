// input_pcapng.cc: pcapng, by our own code, since libpcap hides the directions of packets. Blocks of other kinds are skipped.
#include <deque>

#include "inputs.h"
#include "packets.h"

namespace monitor {

namespace {

constexpr uint32_t SECTION = 0x0A0D0D0A, INTERFACE = 1, SIMPLE_PACKET = 3, ENHANCED_PACKET = 6;
constexpr uint32_t MAGIC = 0x1A2B3C4D, MAGIC_SWAPPED = 0x4D3C2B1A;
constexpr uint32_t OPTION_TSRESOL = 9, OPTION_FLAGS = 2;
constexpr size_t LONGEST_BLOCK = 1 << 24, MOST_WAITING = 10000, MOST_INTERFACES = 65536;

// The line of what comes from an interface.
struct Interface {
    int link_type = 0;
    uint64_t units_per_second = 1000000;
    Origin outbound = Origin::unknown; // whose frames go out there, if the direction alone is told
};

class Pcapng : public Input {
  public:
    explicit Pcapng(std::unique_ptr<Bytes> from) : bytes(std::move(from)) {}

    bool next(Captured &it) override {
        while (!is_at_end && (waiting.empty() || !is_decided(waiting.front())) && waiting.size() < MOST_WAITING)
            read_block();
        if (waiting.empty())
            return false;
        it = std::move(waiting.front());
        waiting.pop_front();
        Origin outbound = interfaces[it.interface].outbound;
        find_frame(it, outbound == Origin::unknown ? Origin::network : outbound);
        return true;
    }

    double share() const override { return bytes->share(); }

  private:
    [[noreturn]] void fail(const std::string &why) const {
        throw Fault(bytes->name() + ": block " + std::to_string(blocks) + ": " + why);
    }

    // Type 203 waits for a frame whose kind says who sent it.
    bool is_decided(const Captured &it) const {
        return it.link_type != LAPD_ALONE || interfaces[it.interface].outbound != Origin::unknown;
    }

    uint32_t number(size_t at, size_t count) const {
        if (at + count > block.size())
            fail("it is too short");
        return number_of(block, at, count, is_big);
    }

    void read_block() {
        Octets head;
        blocks++;
        size_t got = bytes->take(8, head);
        if (got < 8) {
            if (got > 0)
                fail("the file ends within its head");
            is_at_end = true;
            return;
        }
        if (number_of(head, 0, 4, true) == SECTION)
            return begin_section(number_of(head, 4, 4, true));
        if (blocks == 1)
            fail("the file is no pcapng");
        read_body(number_of(head, 4, 4, is_big));
        switch (number_of(head, 0, 4, is_big)) {
        case INTERFACE: return read_interface();
        case ENHANCED_PACKET: return read_packet();
        case SIMPLE_PACKET: fail("packets without a time (simple packet blocks) can't be judged");
        default: return;
        }
    }

    // The body without the lengths around it.
    void read_body(uint32_t length) {
        if (length < 12 || length % 4 != 0 || length > LONGEST_BLOCK)
            fail("its length, " + std::to_string(length) + ", can't be");
        if (bytes->take(length - 8, block) < length - 8)
            fail("the file ends within it");
        if (number(block.size() - 4, 4) != length)
            fail("its two lengths differ");
        block.resize(block.size() - 4);
    }

    void begin_section(uint32_t length_as_big) {
        Octets magic;
        if (bytes->take(4, magic) < 4)
            fail("the file ends within it");
        uint32_t said = number_of(magic, 0, 4, true);
        if (said != MAGIC && said != MAGIC_SWAPPED)
            fail("it begins no section of pcapng");
        is_big = said == MAGIC;
        uint32_t length = is_big ? length_as_big : __builtin_bswap32(length_as_big);
        if (length < 28 || length % 4 != 0 || length > LONGEST_BLOCK)
            fail("its length, " + std::to_string(length) + ", can't be");
        if (bytes->take(length - 12, block) < length - 12)
            fail("the file ends within it");
        first_interface = interfaces.size();
    }

    // Calls `each` with the code and the place of each option of the block, from here on.
    template <class Each> void options(size_t at, Each each) const {
        while (at + 4 <= block.size()) {
            uint32_t code = number(at, 2), length = number(at + 2, 2);
            if (code == 0)
                return;
            if (at + 4 + length > block.size())
                fail("an option is longer than it");
            each(code, at + 4, length);
            at += 4 + (length + 3) / 4 * 4;
        }
    }

    void read_interface() {
        if (interfaces.size() >= MOST_INTERFACES)
            fail("there are too many interfaces");
        Interface it;
        it.link_type = static_cast<int>(number(0, 2));
        std::string why;
        if (!is_known(it.link_type, why))
            fail(why);
        options(8, [&](uint32_t code, size_t at, uint32_t length) {
            if (code == OPTION_TSRESOL && length == 1)
                it.units_per_second = units(block[at]);
        });
        interfaces.push_back(it);
    }

    // If_tsresol: a power of ten, or, with the highest bit, of two.
    uint64_t units(uint8_t resolution) const {
        uint64_t its_units = 1;
        int power = resolution & 0x7F;
        if (power > ((resolution & 0x80) != 0 ? 60 : 18))
            fail("its times are in too small units");
        for (int i = 0; i < power; i++)
            its_units *= (resolution & 0x80) != 0 ? 2 : 10;
        return its_units;
    }

    void read_packet() {
        Captured it;
        uint64_t id = first_interface + number(0, 4);
        if (id >= interfaces.size())
            fail("its interface is not described");
        Interface &from = interfaces[static_cast<size_t>(id)];
        it.interface = static_cast<uint32_t>(id);
        it.line = static_cast<int>(id);
        it.link_type = from.link_type;
        it.number = ++packets;
        uint64_t ticks = static_cast<uint64_t>(number(4, 4)) << 32 | number(8, 4);
        it.at = microseconds(ticks, from.units_per_second);
        uint32_t captured = number(12, 4);
        it.length = number(16, 4);
        if (captured > block.size() - 20)
            fail("its packet is longer than it");
        it.packet.assign(block.begin() + 20, block.begin() + 20 + captured);
        options(20 + (captured + 3) / 4 * 4, [&](uint32_t code, size_t at, uint32_t length) {
            if (code == OPTION_FLAGS && length == 4)
                it.flags = number(at, 4);
        });
        if (it.link_type == LAPD_ALONE)
            decide(it, from);
        waiting.push_back(std::move(it));
    }

    static Time microseconds(uint64_t ticks, uint64_t units) {
        uint64_t seconds = ticks / units, rest = ticks % units;
        constexpr uint64_t MOST_SECONDS = 1ull << 40;
        seconds = seconds > MOST_SECONDS ? MOST_SECONDS : seconds;
        double micros = static_cast<double>(rest) * 1e6 / static_cast<double>(units);
        return static_cast<Time>(seconds * 1000000 + static_cast<uint64_t>(micros));
    }

    // Whose frames go out: the first frame whose kind says who sent it tells.
    void decide(const Captured &it, Interface &from) const {
        if (direction(it.flags) != 1 && direction(it.flags) != 2)
            fail("a frame of link type 203 without a direction can't be judged");
        Origin sender = from.outbound == Origin::unknown ? sender_by_kind(it.packet) : Origin::unknown;
        if (sender == Origin::unknown)
            return;
        Origin other = sender == Origin::network ? Origin::user : Origin::network;
        from.outbound = direction(it.flags) == 2 ? sender : other;
    }

    std::unique_ptr<Bytes> bytes;
    Octets block;
    std::vector<Interface> interfaces;
    size_t first_interface = 0; // of the section
    std::deque<Captured> waiting;
    bool is_big = false, is_at_end = false;
    long blocks = 0, packets = 0;
};

} // namespace

std::unique_ptr<Input> open_pcapng(std::unique_ptr<Bytes> from) { return std::make_unique<Pcapng>(std::move(from)); }

} // namespace monitor
