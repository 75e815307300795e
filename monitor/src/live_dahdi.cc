// live_dahdi.cc: two receive-only channels of DAHDI, as of a tap: one hears the network, the other the user. Both are in HDLC mode
// with its check (dchan or hardhdlc in its system.conf), and only read.
#include <array>
#include <cerrno>
#include <chrono>
#include <cstring>
#include <fcntl.h>
#include <poll.h>
#include <sys/ioctl.h>
#include <unistd.h>

#include "inputs.h"

namespace monitor {

namespace {

constexpr size_t CHECK_OCTETS = 2, LONGEST = 1024;
constexpr int EVENT_WAITS = 500; // errno of a read, as long as an event waits
const unsigned long TAKE_EVENT = _IOR(0xDA, 8, int);

Time now() {
    return std::chrono::duration_cast<std::chrono::microseconds>(std::chrono::system_clock::now().time_since_epoch()).count();
}

class Dahdi : public Input {
  public:
    explicit Dahdi(const std::string &words) {
        size_t comma = words.find(',');
        if (comma == std::string::npos || words.find(',', comma + 1) != std::string::npos)
            throw Fault("dahdi: wants two channels, NETWORK,USER, as numbers or devices, not \"" + words + "\"");
        names = {words.substr(0, comma), words.substr(comma + 1)};
        for (size_t i = 0; i < names.size(); i++) {
            if (names[i].find('/') == std::string::npos)
                names[i] = "/dev/dahdi/" + names[i];
            lines[i] = {open(names[i].c_str(), O_RDONLY | O_NONBLOCK), POLLIN | POLLPRI, 0};
            if (lines[i].fd < 0)
                fail(i, "it can't be opened");
        }
    }
    Dahdi(const Dahdi &) = delete;
    Dahdi &operator=(const Dahdi &) = delete;
    ~Dahdi() override {
        for (const pollfd &it : lines)
            if (it.fd >= 0)
                close(it.fd);
    }

    bool next(Captured &it) override {
        for (;;) {
            for (size_t i = 0; i < lines.size(); i++)
                if (take(i, it))
                    return true;
            if (poll(lines.data(), lines.size(), -1) < 0) {
                if (errno == EINTR)
                    return false;
                fail(0, "it can't be waited for");
            }
            for (size_t i = 0; i < lines.size(); i++)
                if ((lines[i].revents & (POLLERR | POLLHUP | POLLNVAL)) != 0 && (lines[i].revents & POLLIN) == 0) {
                    errno = ENODEV;
                    fail(i, "the device is gone");
                }
        }
    }

  private:
    [[noreturn]] void fail(size_t which, const char *what) const {
        throw Fault(names[which] + ": " + what + ": " + std::strerror(errno));
    }

    // A frame that has come on this channel.
    bool take(size_t which, Captured &it) {
        uint8_t frame[LONGEST];
        ssize_t length = read(lines[which].fd, frame, sizeof frame);
        if (length < 0 && errno == EVENT_WAITS) {
            int event = 0;
            if (ioctl(lines[which].fd, TAKE_EVENT, &event) != 0)
                fail(which, "it gives no event");
            return false;
        }
        if (length < 0 && errno != EAGAIN && errno != EINTR)
            fail(which, "it gives no frame");
        if (length <= static_cast<ssize_t>(CHECK_OCTETS))
            return false;
        it = Captured{};
        it.at = now();
        it.number = ++number;
        it.is_frame = true;
        it.from = which == 0 ? Origin::network : Origin::user;
        it.octets.assign(frame, frame + static_cast<size_t>(length) - CHECK_OCTETS);
        return true;
    }

    std::array<std::string, 2> names;
    std::array<pollfd, 2> lines = {pollfd{-1, 0, 0}, pollfd{-1, 0, 0}};
    long number = 0;
};

} // namespace

std::unique_ptr<Input> open_dahdi(const std::string &words) { return std::make_unique<Dahdi>(words); }

} // namespace monitor
