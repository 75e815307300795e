// deframer.h: frames in the octets of a line, by a card of lapd.h that does nothing else.
#ifndef MONITOR_DEFRAMER_H
#define MONITOR_DEFRAMER_H

#include <memory>

#include "frame.h"

namespace monitor {

class Deframer {
  public:
    Deframer();
    ~Deframer();

    // Takes an octet. True: it has ended a frame with a good check. Of a frame that is too long to be kept the octets after the
    // fourth are zeros.
    bool octet(uint8_t octet, Octets &frame);

  private:
    struct Card;
    std::unique_ptr<Card> card;
};

} // namespace monitor

#endif
