// live_misdn.cc: a D-channel of mISDN, Linux's ISDN stack: a second socket of layer 1, beside that of the stack that runs there.
// The kernel gives it each frame that layer 2 hands to layer 1, and each that layer 1 received (include/linux/mISDNif.h).
#include <cerrno>
#include <chrono>
#include <cstring>
#include <sys/socket.h>
#include <unistd.h>

#include "inputs.h"

namespace monitor {

namespace {

constexpr int FAMILY = 34, LONGEST = 2048; // AF_ISDN
constexpr uint32_t TO_LAYER1 = 0x2001, FROM_LAYER1 = 0x2002; // PH_DATA request and indication
const struct {
    const char *name;
    int protocol;
    bool is_network;
} SIDES[] = {{"te", 1, false}, {"nt", 2, true}, {"te-e1", 3, false}, {"nt-e1", 4, true}};

struct Name {
    sa_family_t family;
    uint8_t device, channel, sapi, tei;
};

struct Message {
    uint32_t primitive, id;
    uint8_t octets[LONGEST];
};

Time now() {
    return std::chrono::duration_cast<std::chrono::microseconds>(std::chrono::system_clock::now().time_since_epoch()).count();
}

class Misdn : public Input {
  public:
    explicit Misdn(const std::string &its_words) : words(its_words) {
        size_t colon = words.find(':');
        std::string card = words.substr(0, colon), side = colon == std::string::npos ? "te" : words.substr(colon + 1);
        int protocol = 0;
        for (const auto &it : SIDES)
            if (side == it.name) {
                protocol = it.protocol;
                is_network = it.is_network;
            }
        char *end = nullptr;
        unsigned long device = std::strtoul(card.c_str(), &end, 10);
        if (card.empty() || *end != '\0' || device > 255 || protocol == 0)
            throw Fault("misdn: wants CARD, CARD:te, CARD:nt, CARD:te-e1 or CARD:nt-e1, CARD from 0, not \"" + words + "\"");
        layer1 = socket(FAMILY, SOCK_DGRAM, protocol);
        Name name = {FAMILY, static_cast<uint8_t>(device), 0, 0, 0};
        if (layer1 < 0 || bind(layer1, reinterpret_cast<const sockaddr *>(&name), sizeof name) != 0)
            fail("mISDN has no such layer 1");
    }
    Misdn(const Misdn &) = delete;
    Misdn &operator=(const Misdn &) = delete;
    ~Misdn() override {
        if (layer1 >= 0)
            close(layer1);
    }

    bool next(Captured &it) override {
        Message message;
        for (;;) {
            ssize_t length = recv(layer1, &message, sizeof message, 0);
            if (length < 0 && errno == EINTR)
                return false;
            if (length < 0)
                fail("the device is gone");
            constexpr ssize_t HEAD = 8;
            bool is_sent = message.primitive == TO_LAYER1;
            if (length <= HEAD || (!is_sent && message.primitive != FROM_LAYER1))
                continue;
            it = Captured{};
            it.at = now();
            it.number = ++number;
            it.is_frame = true;
            it.from = is_sent == is_network ? Origin::network : Origin::user;
            it.octets.assign(message.octets, message.octets + (length - HEAD));
            return true;
        }
    }

  private:
    [[noreturn]] void fail(const char *what) const { throw Fault("misdn:" + words + ": " + what + ": " + std::strerror(errno)); }

    std::string words;
    int layer1 = -1;
    bool is_network = false; // whether the stack here is the network's side
    long number = 0;
};

} // namespace

std::unique_ptr<Input> open_misdn(const std::string &words) { return std::make_unique<Misdn>(words); }

} // namespace monitor
