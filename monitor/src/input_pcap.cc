// input_pcap.cc: captures that libpcap reads, as tcpdump and Wireshark write them, except pcapng.
#include <pcap/pcap.h>

#include "inputs.h"
#include "packets.h"

namespace monitor {

namespace {

class Pcap : public Input {
  public:
    explicit Pcap(std::unique_ptr<Bytes> from) : name(from->name()) {
        char why[PCAP_ERRBUF_SIZE] = "";
        size = from->whole();
        file = from->release();
        capture = pcap_fopen_offline_with_tstamp_precision(file, PCAP_TSTAMP_PRECISION_NANO, why);
        if (capture == nullptr) {
            std::fclose(file);
            throw Fault(name + ": " + why);
        }
        link_type = pcap_datalink(capture);
        std::string refused;
        if (link_type == LAPD_ALONE)
            refused = "a pcap of link type 203 does not say who sent a frame, and nothing can be judged without that: capture with"
                      " link type 177, or as pcapng with the direction flag";
        else if (is_known(link_type, refused))
            return;
        pcap_close(capture);
        throw Fault(name + ": " + refused);
    }
    Pcap(const Pcap &) = delete;
    Pcap &operator=(const Pcap &) = delete;
    ~Pcap() override { pcap_close(capture); }

    bool next(Captured &it) override {
        pcap_pkthdr *head = nullptr;
        const u_char *octets = nullptr;
        int status = pcap_next_ex(capture, &head, &octets);
        if (status == PCAP_ERROR_BREAK)
            return false;
        if (status != 1)
            throw Fault(name + ": packet " + std::to_string(number + 1) + ": " + pcap_geterr(capture));
        it = Captured{};
        it.number = ++number;
        it.at = static_cast<Time>(head->ts.tv_sec) * 1000000 + head->ts.tv_usec / 1000;
        it.link_type = link_type;
        it.packet.assign(octets, octets + head->caplen);
        it.length = head->len;
        find_frame(it, Origin::network);
        return true;
    }

    double share() const override { return size > 0 ? static_cast<double>(std::ftell(file)) / static_cast<double>(size) : -1; }

  private:
    std::string name;
    FILE *file = nullptr;
    int64_t size = -1;
    pcap_t *capture = nullptr;
    int link_type = 0;
    long number = 0;
};

} // namespace

std::unique_ptr<Input> open_pcap(std::unique_ptr<Bytes> from) { return std::make_unique<Pcap>(std::move(from)); }

} // namespace monitor
