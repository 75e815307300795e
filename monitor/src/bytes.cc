// bytes.cc: see bytes.h.
#include "bytes.h"

#include <cerrno>
#include <cstring>
#include <sys/stat.h>

namespace monitor {

Bytes::Bytes(const std::string &name) : its_name(name == "-" ? "standard input" : name) {
    file = name == "-" ? stdin : std::fopen(name.c_str(), "rb");
    if (file == nullptr)
        throw Fault(name + ": " + std::strerror(errno));
    struct stat about {};
    if (fstat(fileno(file), &about) == 0) {
        if (S_ISDIR(about.st_mode)) {
            if (file != stdin)
                std::fclose(file);
            throw Fault(its_name + ": " + std::strerror(EISDIR));
        }
        size = S_ISREG(about.st_mode) ? about.st_size : -1;
    }
}

Bytes::~Bytes() {
    if (file != nullptr && file != stdin)
        std::fclose(file);
}

void Bytes::check() {
    if (std::ferror(file) != 0)
        throw Fault(its_name + ": " + std::strerror(errno));
}

int Bytes::peek() {
    int octet = std::fgetc(file);
    check();
    if (octet != EOF)
        std::ungetc(octet, file);
    return octet == EOF ? -1 : octet;
}

size_t Bytes::take(size_t count, Octets &octets) {
    // What a damaged file says of its lengths is no reason to take memory for it.
    constexpr size_t AT_ONCE = 65536;
    octets.clear();
    while (octets.size() < count) {
        size_t before = octets.size(), want = std::min(AT_ONCE, count - before);
        octets.resize(before + want);
        size_t got = std::fread(octets.data() + before, 1, want, file);
        octets.resize(before + got);
        taken += static_cast<int64_t>(got);
        check();
        if (got < want)
            break;
    }
    return octets.size();
}

bool Bytes::line(std::string &text, size_t longest) {
    text.clear();
    for (int octet; (octet = std::fgetc(file)) != EOF;) {
        taken++;
        if (octet == '\n')
            return true;
        text.push_back(static_cast<char>(octet));
        if (text.size() > longest)
            throw Fault(its_name + ": a line is longer than " + std::to_string(longest) + " characters");
    }
    check();
    return !text.empty();
}

FILE *Bytes::release() {
    FILE *its = file;
    file = nullptr;
    return its;
}

} // namespace monitor
