// bytes.h: reads a file or a pipe octet by octet, with a look ahead; and numbers of either order.
#ifndef MONITOR_BYTES_H
#define MONITOR_BYTES_H

#include <cstdio>

#include "captured.h"

namespace monitor {

class Bytes {
  public:
    // Owns the file, except standard input.
    explicit Bytes(const std::string &name);
    Bytes(const Bytes &) = delete;
    Bytes &operator=(const Bytes &) = delete;
    ~Bytes();

    // The first octet that is not read yet, or -1 at the end.
    int peek();
    // So many octets, or as many as there are.
    size_t take(size_t count, Octets &octets);
    // A line without its line feed. False: there is none. Throws Fault if it is longer.
    bool line(std::string &text, size_t longest);

    const std::string &name() const { return its_name; }
    int64_t whole() const { return size; } // octets, or -1 if that is not known
    double share() const { return size > 0 ? static_cast<double>(taken) / static_cast<double>(size) : -1; }
    // The file itself, for a library that reads it from here on; which closes it.
    FILE *release();

  private:
    void check();

    std::string its_name;
    FILE *file;
    int64_t size = -1, taken = 0;
};

inline uint32_t number_of(const Octets &octets, size_t at, size_t count, bool is_big) {
    uint32_t number = 0;
    for (size_t i = 0; i < count; i++)
        number |= static_cast<uint32_t>(octets[at + i]) << 8 * (is_big ? count - 1 - i : i);
    return number;
}

} // namespace monitor

#endif
