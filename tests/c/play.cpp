// play.cpp: plays a script of docs/FORMAT.md through lapd.hpp, and writes its transcript, as `lapdsim run` does. For tests
// alone.
//
//     play_cpp [--timed] < SCRIPT
//
// With --timed the card keeps its own timers, and there is no clock.
// Status 0; 1 for a faulty line or refused memory, told on standard error; 3 for what can't be.
#include <array>
#include <cstdio>
#include <cstdlib>
#include <cstring>
#include <memory>
#include <utility>
#include <vector>

#include "hdlc.h"
#include "lapd.hpp"
#include "words.h"

namespace {

using lapd::status;

struct side {
    hdlc_sender sender;
    hdlc_listener listener;
};

void put(lapd::octets octets) {
    for (uint8_t octet : octets)
        std::printf("%02X", octet);
    std::puts(octets.empty() ? "-" : "");
}

// A call that can't fail here did: the library is wrong, or this program.
void want_ok(status is, const char *call) {
    if (is == status::ok)
        return;
    std::fprintf(stderr, "play: %s: %s\n", call, lapd::text(is));
    std::exit(3);
}

// A card of either kind with its clock, if it has one, and at each line a terminal that sends and a listener that hears.
class station {
public:
    explicit station(bool is_timed) : is_timed_(is_timed) {}
    fault obey(const command &line);

private:
    fault start(const command &line);
    fault obey_at(uint32_t line, const command &of);
    fault wait(uint32_t ms);
    void fall_due(uint64_t end);
    void tell(uint32_t line);
    void receive(uint32_t line, uint8_t octet);
    void send(uint32_t line, lapd::octets frame);
    void pull(uint32_t line, uint32_t count);
    void take_frame(uint32_t line, const command &of);
    void give_frame(uint32_t line);
    bool is_waiting(uint32_t line);
    void ask(uint32_t line, const command &of);
    status asked(uint32_t line, const command &of);
    void bring_down(uint32_t line);
    void show_stored();
    void show_counters(uint32_t line, unsigned from, unsigned to);
    bool is_of_other_card(const command &of) const;
    lapd::any_card *any();

    bool is_timed_;
    std::unique_ptr<lapd::card> octets_;
    std::unique_ptr<lapd::frame_card> frames_;
    lapd::clock clock_;
    lapd::report report_;
    std::vector<side> sides_;
    uint64_t now_ = 0;
    bool losses_ = false; // what is given up is shown
};

lapd::any_card *station::any() {
    return frames_ ? static_cast<lapd::any_card *>(frames_.get()) : octets_.get();
}

fault station::start(const command &line) {
    const lapd_config &config = line.config;
    auto octets = std::make_unique<lapd::card>();
    auto frames = std::make_unique<lapd::frame_card>();
    const lapd_lengths lengths = {1000, 10000, 1000, 2000, {}};
    status is = is_timed_ ? (line.for_frames ? frames->start(config, lengths) : octets->start(config, lengths))
                          : (line.for_frames ? frames->start(config) : octets->start(config));
    if (is == status::ok && !is_timed_)
        is = clock_.start(config);
    if (is >= status::bad_lines)
        return BAD_CARD;
    if (is == status::no_memory)
        return NO_MEMORY;
    want_ok(is, "start");
    if (line.for_frames)
        frames_ = std::move(frames);
    else
        octets_ = std::move(octets);
    sides_.resize(config.lines);
    for (side &it : sides_) {
        hdlc_begin(&it.sender);
        hdlc_listen(&it.listener);
    }
    return NO_FAULT;
}

// Writes what an event told, and hands its orders to the clock.
void station::tell(uint32_t line) {
    for (lapd::note note : report_.notes()) {
        std::printf("%u %s %u", line, note.text(), note.tei);
        if (note.kind == lapd::note_kind::data_indication || note.kind == lapd::note_kind::unit_indication) {
            std::putchar(' ');
            put(report_.contents());
        } else if (note.kind == lapd::note_kind::error_indication) {
            std::printf(" %c\n", note.error);
        } else {
            std::putchar('\n');
        }
    }
    if (report_.cause() != lapd::cause::none)
        std::printf("%u dropped %s\n", line, lapd::text(report_.cause()));
    if (report_.lost() != 0)
        std::printf("%u lost %u\n", line, report_.lost());
    if (losses_ && report_.given_up() != 0)
        std::printf("%u given-up %u %u\n", line, report_.given_up_tei(), report_.given_up());
    if (losses_ && report_.given_up_16() != 0)
        std::printf("%u given-up-16 %u %u\n", line, report_.given_up_tei(), report_.given_up_16());
    if (is_timed_)
        want_ok(report_.orders().empty() && report_.line() == line ? status::ok : status::wrong_order, "no orders");
    else if (report_.orders().size() == 1)
        want_ok(clock_.apply(line, report_.orders()[0], now_), "an order");
    else
        want_ok(clock_.apply(line, report_, now_), "orders");
}

// ---- A card of octets ----------------------------------------------------------------------------------------------

void station::receive(uint32_t line, uint8_t octet) {
    want_ok(octets_->octet(line, octet, report_), "octet");
    tell(line);
}

// The terminal's frame, up to and with the last bit of its closing flag.
void station::send(uint32_t line, lapd::octets frame) {
    hdlc_sender *sender = &sides_[line].sender;
    while (hdlc_busy(sender))
        receive(line, hdlc_octet(sender));
    hdlc_load(sender, frame.data(), frame.size());
    for (size_t left = hdlc_left(sender), given = 0; given < left; given += 8)
        receive(line, hdlc_octet(sender));
}

// Every other octet by a call of its own, the others by an exchange whose first step is done.
void station::pull(uint32_t line, uint32_t count) {
    static const uint8_t none[] = {0};
    std::vector<uint8_t> given(count);
    for (uint32_t at = 0; at < count; at++) {
        size_t steps = 1;
        if (at % 2 == 0)
            want_ok(octets_->pull(line, given[at], report_), "pull");
        else
            want_ok(octets_->exchange(line, none, {&given[at], 1}, steps, report_), "exchange");
        tell(line);
    }
    std::printf("%u tx ", line);
    put(given);
    hdlc_listener *listener = &sides_[line].listener;
    for (uint8_t octet : given)
        if (hdlc_hear(listener, octet)) {
            std::printf("%u frame ", line);
            put({listener->frame, listener->length});
        }
}

// ---- A card of frames ----------------------------------------------------------------------------------------------

void station::take_frame(uint32_t line, const command &of) {
    if (of.verb == FAILED)
        want_ok(frames_->failed(line, static_cast<lapd::cause>(of.cause), report_), "failed");
    else
        want_ok(frames_->frame(line, {of.octets, of.length}, report_), "frame");
    tell(line);
}

bool station::is_waiting(uint32_t line) {
    uint32_t first = 0;
    return frames_->next_waiting(line, first) == status::ok && first == line;
}

void station::give_frame(uint32_t line) {
    std::array<uint8_t, LAPD_MOST_FRAME> room;
    lapd::octets frame;
    const bool waits = is_waiting(line);
    const status is = frames_->next_frame(line, room, frame, report_);
    if ((is == status::ok) != waits || (is == status::ok && report_.more() != is_waiting(line)))
        want_ok(status::no_frame, "what waits");
    if (is == status::no_frame) {
        std::printf("%u nothing\n", line);
        return;
    }
    want_ok(is, "next frame");
    tell(line);
    std::printf("%u frame ", line);
    put(frame);
}

bool station::is_of_other_card(const command &of) const {
    return frames_ ? of.verb == RX || of.verb == PULL : of.verb == FAILED || of.verb == NEXT;
}

// ---- A card of either kind ------------------------------------------------------------------------------------------

// The card's own timers fall due, each at its moment.
void station::fall_due(uint64_t end) {
    for (status is = status::ok; is != status::no_timer || now_ < end;) {
        uint64_t moment;
        now_ = any()->next_moment(moment) == status::ok && moment < end ? moment : end;
        is = any()->fall_due(now_, report_);
        if (is == status::no_timer)
            continue;
        want_ok(is, "fall due");
        tell(report_.line());
    }
}

fault station::wait(uint32_t ms) {
    if (now_ > static_cast<uint64_t>(INT64_MAX) - ms)
        return TIME_OVER;
    const uint64_t end = now_ + ms;
    if (is_timed_)
        fall_due(end);
    for (uint64_t moment; !is_timed_ && clock_.next(moment) == status::ok && moment <= end;) {
        lapd::due due;
        now_ = moment;
        want_ok(clock_.take_due(moment, due), "due");
        want_ok(any()->expire(due.line, due.timer, report_), "expire");
        tell(due.line);
    }
    now_ = end;
    return NO_FAULT;
}

status station::asked(uint32_t line, const command &of) {
    const auto service = static_cast<lapd::service>(of.service);
    const auto tei = static_cast<uint8_t>(of.numbers[1]);
    const lapd::octets contents = {of.octets, of.length};
    switch (of.request) {
    case LAPD_ESTABLISH: return any()->establish(line, service, tei, report_);
    case LAPD_RELEASE: return any()->release(line, service, tei, report_);
    case LAPD_DATA: return any()->data(line, service, tei, contents, report_);
    case LAPD_UNIT: return any()->unit(line, service, tei, contents, report_);
    case LAPD_ASSIGN: return any()->assign(line, tei, report_);
    case LAPD_REMOVE: return any()->remove(line, tei, report_);
    case LAPD_CHECK: return any()->check(line, tei, report_);
    case LAPD_DISOWN: return any()->disown(line, tei, report_);
    case LAPD_ASK_TEI: return any()->ask_tei(line, report_);
    case LAPD_VERIFY_TEI: return any()->verify_tei(line, tei, report_);
    case LAPD_BUSY: return any()->busy(line, service, tei, report_);
    case LAPD_READY: return any()->ready(line, service, tei, report_);
    default: return any()->deactivate(line, service, tei, report_);
    }
}

void station::ask(uint32_t line, const command &of) {
    const status is = asked(line, of);
    if (lapd::is_refusal(is)) {
        std::printf("%u refused %s\n", line, lapd::text(is));
        return;
    }
    want_ok(is, "request");
    tell(line);
}

void station::bring_down(uint32_t line) {
    uint8_t place = 0;
    status is = any()->line_down(line, place, report_);
    for (; is == status::ok; is = any()->line_down(line, place, report_))
        tell(line);
    if (is != status::no_more_links)
        want_ok(is, "line down");
}

void station::show_stored() {
    uint32_t stored, limit;
    want_ok(any()->stored(stored), "stored");
    want_ok(any()->limit(limit), "limit");
    std::printf("stored %u limit %u\n", stored, limit);
}

void station::show_counters(uint32_t line, unsigned from, unsigned to) {
    struct lapd_counters counters;
    bool is_any = false;
    want_ok(any()->counters(line, counters), "counters");
    for (unsigned place = from; place < to; place++)
        if (counters.values[place] > 0) {
            std::printf("%u counter %s %llu\n", line, lapd_counter_text(place),
                        static_cast<unsigned long long>(counters.values[place]));
            is_any = true;
        }
    if (!is_any)
        std::printf("%u nothing\n", line);
}

// A line that is about one line of the card, which has it.
fault station::obey_at(uint32_t line, const command &of) {
    const lapd::octets octets = {of.octets, of.length};
    if (of.verb == IN && !frames_ && (of.length < 3 || of.length > HDLC_MOST_OCTETS))
        return BAD_FRAME;
    if (of.verb == FAILED || (of.verb == IN && frames_))
        take_frame(line, of);
    else if (of.verb == IN)
        send(line, octets);
    else if (of.verb == NEXT)
        give_frame(line);
    else if (of.verb == PULL)
        pull(line, of.numbers[1]);
    else if (of.verb == REQUEST)
        ask(line, of);
    else if (of.verb == DOWN)
        bring_down(line);
    else if (of.verb == COUNTERS)
        show_counters(line, 0, LAPD_HEARD_REQUEST);
    else if (of.verb == MESSAGES)
        show_counters(line, LAPD_HEARD_REQUEST, LAPD_COUNTERS);
    else
        for (uint8_t octet : octets)
            receive(line, octet);
    return NO_FAULT;
}

// A line of a script.
fault station::obey(const command &line) {
    uint32_t lines;
    if (line.verb == CARD)
        return any() != nullptr ? SECOND_CARD : start(line);
    if (any() == nullptr)
        return NO_CARD;
    if (line.verb == WAIT)
        return wait(line.numbers[0]);
    if (line.verb == TIMERS) {
        const uint32_t *numbers = line.numbers;
        const lapd_lengths lengths = {numbers[0], numbers[1], numbers[2], numbers[3], {}};
        const status is = is_timed_ ? any()->set_lengths(lengths) : clock_.set_lengths(numbers[0], numbers[1], numbers[2], numbers[3]);
        return is == status::ok ? NO_FAULT : BAD_NUMBER;
    }
    if (line.verb == STORED) {
        show_stored();
        return NO_FAULT;
    }
    if (line.verb == LOSSES) {
        losses_ = true;
        return NO_FAULT;
    }
    if (line.verb == SAVE || line.verb == RESTORE) // what they show and do is asked by tests/image
        return line.verb == SAVE || frames_ ? NO_FAULT : WRONG_CARD;
    if (is_of_other_card(line))
        return WRONG_CARD;
    want_ok(any()->lines(lines), "lines");
    return line.numbers[0] >= lines ? BAD_LINE : obey_at(line.numbers[0], line);
}

} // namespace

int main(int words, char **word) {
    static char line[MOST_LINE];
    static command read;
    station card(words > 1 && std::strcmp(word[1], "--timed") == 0);
    fault kind = NO_FAULT;
    size_t length, number = 0;
    while (kind == NO_FAULT && next_line(line, &length)) {
        number++;
        if (length > MOST_LINE)
            kind = TOO_LONG;
        else if (length > 0 && line[0] != '#')
            kind = read_command(line, length, &read);
        else
            continue;
        if (kind == NO_FAULT)
            kind = card.obey(read);
    }
    if (kind == NO_MEMORY)
        std::fprintf(stderr, "%s\n", fault_text(kind));
    else if (kind != NO_FAULT)
        std::fprintf(stderr, "line %zu: %s\n", number, fault_text(kind));
    return kind != NO_FAULT;
}
