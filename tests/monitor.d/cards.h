// cards.h: all that a card of the library may be in, as far as an observer knows: found by playing each event that a tap does not
// see on copies of the card. It has nothing of lapd-monitor's rows.
#ifndef CARDS_H
#define CARDS_H

#include <map>
#include <set>
#include <string>
#include <vector>

#include "lapd.h"
#include "state.h"

using Image = std::vector<uint8_t>;
using monitor::Octets;

// An event that a tap does not see, by the words of the printed tables of a link; and what is asked of the card.
struct Unseen {
    const char *words;
    uint8_t timer, request;
};
extern const std::vector<Unseen> UNSEEN;
extern const Unseen RELEASED, DEACTIVATED; // the first is among UNSEEN

// A card of frames with one TEI, 0, whose link for call control is looked at. What it counts is of no interest: it is left out.
class Card {
  public:
    explicit Card(const lapd_config &config);
    explicit Card(const Image &image);
    Card(const Card &) = delete;
    Card &operator=(const Card &) = delete;
    ~Card();

    void hears(const Octets &frame);
    void happens(const Unseen &it);
    bool next(Octets &frame);
    Image image();

  private:
    lapd_card card = LAPD_CARD_NONE;
    lapd_report report;
};

// What the image has of the link: its state as the monitor tells states apart, and whether a control frame waits in it.
monitor::State state_of(const Image &image);
bool has_control(const Image &image);
// Contents wait that were sent before V(S) went back.
bool sends_again(const Image &image);

// A frame that may come next, how it came, and what the card is in after it.
struct Answer {
    std::set<Image> unheard, heard; // if the frame toward it was not heard yet, and if it was
};

// What may happen unseen besides: frames toward the card are lost, and its link is deactivated.
struct Ways {
    bool loses, goes_down;
};

class Cards {
  public:
    Cards(const Image &first, Ways its_ways) : ways(its_ways), there{first} {}

    // A frame toward it was tapped: it may be heard now, or later.
    void hears(const Octets &frame);
    // Each frame that it may send next.
    std::map<Octets, Answer> answers() const;
    void sent(const Answer &answer);
    // The time in which an answer had to come has passed.
    void settle();
    const std::set<Image> &all() const { return there; }

  private:
    void close(std::set<Image> &all) const;
    std::map<Octets, std::set<Image>> answers_of_all(std::set<Image> from) const;
    std::set<Image> after_hearing(std::set<Image> from) const;

    Ways ways;
    std::set<Image> there, unheard;
    Octets transit;
};

#endif
