// output_annotated.cc: a pcapng of all packets, in which what is told of a packet is its comment. See output.h.
#include <cerrno>
#include <cstring>

#include "output.h"
#include "packets.h"

namespace monitor {

namespace {

constexpr uint32_t SECTION = 0x0A0D0D0A, MAGIC = 0x1A2B3C4D, INTERFACE = 1, ENHANCED_PACKET = 6;
constexpr uint32_t COMMENT = 1, FLAGS = 2, SNAP_LENGTH = 65535;
constexpr size_t LONGEST_COMMENT = 60000;

// A block: its body, with each number low octet first.
class Block {
  public:
    explicit Block(uint32_t its_kind) : kind(its_kind) {}

    Block &number(uint64_t value, size_t octets) {
        for (size_t i = 0; i < octets; i++)
            body.push_back(static_cast<uint8_t>(value >> 8 * i));
        return *this;
    }
    Block &octets(const uint8_t *from, size_t count) {
        body.insert(body.end(), from, from + count);
        while (body.size() % 4 != 0)
            body.push_back(0);
        return *this;
    }
    Block &option(uint32_t code, const std::string &text) {
        number(code, 2).number(text.size(), 2);
        return octets(reinterpret_cast<const uint8_t *>(text.data()), text.size());
    }
    void write(FILE *to) const {
        Block ends(0);
        ends.number(kind, 4).number(body.size() + 12, 4);
        std::fwrite(ends.body.data(), 1, 8, to);
        std::fwrite(body.data(), 1, body.size(), to);
        std::fwrite(ends.body.data() + 4, 1, 4, to);
    }

  private:
    uint32_t kind;
    Octets body;
};

// A frame that stood in no packet gets Linux's pseudo-header, as if it was captured at the network's side.
void make_packet(Captured &it) {
    if (it.link_type >= 0)
        return;
    uint8_t type = it.from == Origin::network ? 4 : 0;
    it.packet = {0, type, 0x20, 0xFD, 0, 1, 1, 0, 0, 0, 0, 0, 0, 0, 0, 0x30};
    it.packet.insert(it.packet.end(), it.octets.begin(), it.octets.end());
    it.link_type = LINUX_LAPD;
    it.length = static_cast<uint32_t>(it.packet.size());
}

class AnnotatedOutput : public Output {
  public:
    explicit AnnotatedOutput(const std::string &its_name) : name(its_name), to(std::fopen(its_name.c_str(), "wb")) {
        if (to == nullptr)
            throw Fault(name + ": " + std::strerror(errno));
        Block(SECTION).number(MAGIC, 4).number(1, 2).number(0, 2).number(UINT64_MAX, 8).write(to);
    }
    AnnotatedOutput(const AnnotatedOutput &) = delete;
    AnnotatedOutput &operator=(const AnnotatedOutput &) = delete;
    ~AnnotatedOutput() override {
        if (to != nullptr)
            std::fclose(to);
    }

    // The packet before is written as the next comes, so that what is told at the end finds a place at the last.
    void packet(const Captured &it, const AllTold &told) override {
        if (has_last)
            write();
        last = it;
        has_last = true;
        comment.clear();
        add(told);
    }

    void ends(const AllTold &told, const Summary &) override {
        add(told);
        if (has_last)
            write();
        bool is_written = std::ferror(to) == 0;
        is_written &= std::fclose(to) == 0;
        to = nullptr;
        if (!is_written)
            throw Fault(name + ": it can't be written");
    }

  private:
    void add(const AllTold &told) {
        for (const Told &it : told)
            comment += (comment.empty() ? "" : "\n") + in_words(it.address) + " " + name_of_end(it.is_network) + ": "
                + in_words(it);
    }

    uint32_t interface_of(const Captured &it) {
        auto key = std::make_pair(it.interface, it.link_type);
        auto found = interfaces.find(key);
        if (found != interfaces.end())
            return found->second;
        Block(INTERFACE).number(static_cast<uint64_t>(it.link_type), 2).number(0, 2).number(SNAP_LENGTH, 4).write(to);
        uint32_t number = static_cast<uint32_t>(interfaces.size());
        interfaces[key] = number;
        return number;
    }

    void write() {
        make_packet(last);
        Block block(ENHANCED_PACKET);
        uint64_t at = static_cast<uint64_t>(last.at);
        block.number(interface_of(last), 4).number(at >> 32, 4).number(at & UINT32_MAX, 4);
        block.number(last.packet.size(), 4).number(std::max<size_t>(last.length, last.packet.size()), 4);
        block.octets(last.packet.data(), last.packet.size());
        if (last.flags != 0)
            block.number(FLAGS, 2).number(4, 2).number(last.flags, 4);
        if (!comment.empty())
            block.option(COMMENT, comment.substr(0, LONGEST_COMMENT));
        block.number(0, 4).write(to);
    }

    std::string name, comment;
    FILE *to;
    Captured last;
    bool has_last = false;
    std::map<std::pair<uint32_t, int>, uint32_t> interfaces;
};

} // namespace

std::unique_ptr<Output> annotated_output(const std::string &name) { return std::make_unique<AnnotatedOutput>(name); }

} // namespace monitor
