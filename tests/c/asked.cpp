// asked.cpp: what lapd.hpp can be asked for and no script asks: states, links, rooms, a line that goes down, frames in words,
// begun frames, timers of a card's own, a terminal, images, ends and second starts; and that one that fails leaves its answer as it was. Status 0
// where all is as it should be. For tests alone.
#include <cstdio>
#include <cstring>
#include <vector>

#include "lapd.hpp"

namespace {

using lapd::service;
using lapd::status;

const lapd_config config = {2, 8, 7, 7, 8, 4, 4, 64, 260, 3, LAPD_NETWORK, 0, 0, LAPD_PROFILE, {}};
const uint8_t sabme[] = {0x00, 0x81, 0x7F}, ua[] = {0x02, 0x81, 0x73};
bool is_good = true;

void wants(bool good, const char *what) {
    if (!good)
        std::fprintf(stderr, "asked: %s\n", what);
    is_good = is_good && good;
}

// Who is on line 1, where TEI 64 established its link for calls and has one of data on its way, and on line 0, where nobody is.
void asks(lapd::any_card &card) {
    lapd::state state = lapd::state::timer_recovery;
    wants(card.state_of(1, service::call, 64, state) == status::ok && state == lapd::state::established, "a state");
    wants(card.state_of(2, service::call, 64, state) == status::wrong_line && state == lapd::state::established, "no state");
    wants(card.state_of(0, service::call, 64, state) == status::ok && state == lapd::state::none, "a TEI that is not there");
    uint8_t place = 0;
    lapd::link link{};
    std::vector<lapd::link> links;
    while (card.next_link(1, place, link) == status::ok)
        links.push_back(link);
    wants(links.size() == 2 && links[0].service == service::call && links[1].service == service::packet && links[1].tei == 64
              && links[0].state == lapd::state::established && links[1].state == lapd::state::tei_assigned, "links");
    lapd::room room{};
    wants(card.room_of(1, service::call, 64, room) == status::ok && room.pool == 63 && room.queue == 7 && room.va == 0, "a room");
    wants(card.room_of(1, service::call, 65, room) == status::refused_no_link && room.pool == 63, "no room");
    struct lapd_link_counters counted = {9, 9, 9, 9, 9, {9}};
    wants(card.link_counters(1, service::call, 65, counted) == status::refused_no_link && counted.established == 9, "no counters of a link");
    wants(card.link_counters(1, service::call, 64, counted) == status::ok && counted.established == 1 && counted.sent_again == 0
              && counted.t200_expired == 0 && counted.rejects_sent == 0 && counted.rejects_received == 0, "counters of a link");
    lapd::report report;
    while (card.data(1, service::call, 64, {}, report) == status::ok)
        wants(!report.reopened(), "room before contents are refused");
    size_t calls = 0, told = 0;
    for (place = 0; card.line_down(1, place, report) == status::ok; calls++) {
        told += report.notes().size();
        wants(report.reopened() == (calls == 0), "room, or none");
        wants(calls != 0 || (report.reopened_service() == service::call && report.reopened_tei() == 64), "another link has room");
    }
    wants(calls == 3 && told == 1 && card.line_down(1, place, report) == status::no_more_links, "a line that goes down");
    uint32_t lines = 0;
    wants(card.lines(lines) == status::ok && lines == 2, "lines");
    wants(card.end() == status::ok && card.end() == status::no_card && card.lines(lines) == status::no_card, "an end");
}

void asks_words() {
    char text[LAPD_MOST_TEXT] = "";
    wants(lapd::frame_text(sabme, LAPD_USER, text) == status::ok && std::strcmp(text, "sapi 0 tei 64 command sabme p 1 info -") == 0, "a frame in words");
    wants(lapd::frame_text(sabme, LAPD_USER, lapd::span<char>(text, 10)) == status::wrong_length && text[0] == 's', "words in little room");
    wants(lapd::frame_text({}, LAPD_NETWORK, text) == status::ok && std::strcmp(text, "frame: short") == 0, "no frame in words");
    lapd_fields fields = {};
    wants(lapd::frame_read(sabme, LAPD_USER, fields) == status::ok && fields.kind == LAPD_KIND_SABME && fields.tei == 64 && fields.bit == 1, "a frame in fields");
    wants(lapd::frame_read({}, LAPD_NETWORK, fields) == status::frame_short && fields.tei == 64, "no frame in fields");
    const lapd_note packet = {LAPD_ERROR_INDICATION, LAPD_PACKET, 64, 'F', {}};
    lapd_config of = config;
    of.sapi = 62;
    wants(lapd::note(packet).text(of, text) == status::ok && std::strcmp(text, "error sapi 62") == 0, "a note with its SAPI");
    wants(lapd::note(packet).text(config, text) == status::ok && std::strcmp(text, "error sapi 16") == 0, "a note with SAPI 16");
    wants(lapd::note(packet).text(of, lapd::span<char>(text, 13)) == status::wrong_length && text[12] == '6', "a note in little room");
    wants(lapd::note(packet).raw().error == 'F' && lapd::note(packet).raw().tei == 64, "a note as C has it");
}

void asks_octets(lapd::card &card, lapd::report &report) {
    lapd_head head = {1, {0}, {0}};
    wants(card.begun(1, head) == status::ok && head.length == 0, "no begun frame");
    for (uint8_t octet : {0x7E, 0x00, 0x81, 0xEF, 0x50, 0xB1, 0xFD, 0xFC})
        wants(card.octet(1, octet, report) == status::ok, "an octet");
    uint8_t octet = 0;
    wants(card.pull(1, octet, report) == status::ok && !report.begun() && octet == 0x7E, "a flag");
    wants(card.pull(1, octet, report) == status::ok && report.begun() && octet == 0x00, "a pull");
    wants(card.begun(1, head) == status::ok && head.length == 3 && head.octets[2] == 0x73, "a begun frame");
    wants(card.heard(1, head) == status::ok && head.length == 3 && head.octets[2] == 0x7F, "a frame that was heard");
    wants(card.heard(0, head) == status::ok && head.length == 0, "no frame that was heard");
    uint8_t room[LAPD_MOST_FRAME];
    lapd::octets whole;
    wants(card.heard_frame(1, {room, 2}, whole) == status::wrong_length && whole.empty(), "a frame in a small room");
    wants(card.heard_frame(1, room, whole) == status::ok && whole.size() == 3 && whole[0] == 0x00 && whole[1] == 0x81 && whole[2] == 0x7F, "a whole frame that was heard");
    wants(card.begun_frame(1, room, whole) == status::ok && whole.size() == 3 && whole[0] == 0x00 && whole[1] == 0x81 && whole[2] == 0x73, "a whole frame that was begun");
    wants(card.octet(1, 0x7E, report) == status::ok && card.heard_frame(1, room, whole) == status::no_frame, "a frame that has gone");
    wants(card.begun_frame(0, room, whole) == status::no_frame, "no begun frame of the other line");
}

void asks_frames(lapd::frame_card &card, lapd::report &report) {
    uint8_t room[LAPD_MOST_FRAME];
    lapd::octets goes;
    uint32_t line = 777;
    wants(card.next_waiting(0, line) == status::no_frame && line == 777, "no line on which a frame waits");
    wants(card.frame(1, sabme, report) == status::ok && report.tells() && report.notes().size() == 1 && !report.more(), "a frame");
    wants(card.next_waiting(0, line) == status::ok && line == 1, "the line on which a frame waits");
    wants(card.next_waiting(2, line) == status::no_frame && line == 1, "no line from there on");
    wants(card.next_frame(1, {room, 3}, goes, report) == status::wrong_length && goes.empty(), "a small room");
    wants(card.next_frame(1, room, goes, report) == status::ok && goes.data() == room && goes.size() == 3 && goes[2] == 0x73, "UA");
    wants(!report.more() && card.next_waiting(0, line) == status::no_frame, "another frame");
    wants(card.next_frame(1, room, goes, report) == status::no_frame && goes.size() == 3, "no frame");
}

// A card of frames with a TEI is saved, and goes on in another; so does a clock.
void asks_images() {
    lapd::frame_card card, other;
    lapd::card of_octets;
    lapd::clock clock, second;
    lapd::report report;
    lapd::octets image;
    std::vector<uint8_t> room(lapd::image_octets(config)), small(9);
    wants(room.size() > 1000 && lapd::image_octets({}) == 0, "how long an image is");
    wants(card.save(room, image) == status::no_card && card.start(config) == status::ok && card.assign(1, 64, report) == status::ok, "no card");
    wants(card.frame(1, sabme, report) == status::ok && card.save(small, image) == status::wrong_length && image.empty(), "a small room");
    wants(card.save(room, image) == status::ok && image.data() == room.data() && image.size() > 600, "an image");
    wants(card.restore(image) == status::second_start && other.restore(image.first(20)) == status::bad_image, "no restore");
    lapd::state state{};
    uint32_t line = 0;
    wants(other.restore(image) == status::ok && other.state_of(1, service::call, 64, state) == status::ok && state == lapd::state::established
              && other.next_waiting(0, line) == status::ok && line == 1, "a card that goes on");
    uint8_t octet = 0;
    wants(of_octets.restore(image) == status::ok && of_octets.pull(1, octet, report) == status::wrong_card, "a card of the other kind");
    const lapd::order start(lapd_order{LAPD_START, {LAPD_T201, 0, 0}});
    uint64_t moment = 0;
    wants(clock.save(room, image) == status::no_clock && clock.start(config) == status::ok && clock.apply(1, start, 5) == status::ok, "a clock");
    wants(clock.save(room, image) == status::ok && second.restore(image) == status::ok && second.next(moment) == status::ok && moment == 1005
              && second.restore(image) == status::second_start && other.end() == status::ok && other.restore(image) == status::bad_image, "a clock that goes on");
}

// A card that keeps its own timers: a link is asked for at 5 s, so T200 falls due a second later, and a second after that.
void asks_timers(lapd::any_card &card) {
    lapd::report report;
    uint64_t moment = 7;
    wants(card.fall_due(0, report) == status::no_timer && card.next_moment(moment) == status::no_timer && moment == 7, "no timer of its own");
    wants(card.assign(1, 64, report) == status::ok && card.fall_due(5000, report) == status::no_timer && card.now(moment) == status::ok && moment == 5000, "time");
    wants(card.fall_due(4999, report) == status::wrong_time && card.fall_due(uint64_t{1} << 63, report) == status::wrong_time, "wrong times");
    wants(card.establish(1, service::call, 64, report) == status::ok && report.orders().empty() && report.line() == 1 && !report.expired(), "a request without orders");
    wants(card.changed_at(1, service::call, 64, moment) == status::ok && moment == 5000 && card.changed_at(1, service::packet, 64, moment) == status::ok && moment == 0, "a state has changed");
    wants(card.changed_at(1, service::call, 65, moment) == status::refused_no_link && card.changed_at(9, service::call, 64, moment) == status::wrong_line && moment == 0, "no state has changed");
    wants(card.next_moment(moment) == status::ok && moment == 6000, "T200 of its own");
    wants(card.fall_due(5999, report) == status::no_timer && card.fall_due(6000, report) == status::ok && report.line() == 1, "it falls due");
    const lapd::timer expired = report.expired_timer();
    wants(report.expired() && expired.kind == lapd::timer_kind::t200 && expired.service == service::call && expired.tei == 64, "another timer fell due");
    wants(card.fall_due(6000, report) == status::no_timer && card.next_moment(moment) == status::ok && moment == 7000, "T200 again");
    wants(card.set_lengths({500, 10000, 1000, 2000, {}}) == status::ok && card.set_lengths({0, 1, 1, 1, {}}) == status::wrong_time
              && card.next_moment(moment) == status::ok && moment == 7000, "T200 that runs keeps its length");
    wants(card.fall_due(7000, report) == status::ok && card.next_moment(moment) == status::ok && moment == 7500, "another length of T200");
    wants(card.changed_at(1, service::call, 64, moment) == status::ok && moment == 5000, "SABME goes again, and the state is the same");
    wants(card.expire(1, lapd::timer({LAPD_T200, LAPD_CALL, 64}), report) == status::wrong_card, "an expiry that is not its own");
    wants(card.end() == status::ok && card.set_lengths({1, 1, 1, 1, {}}) == status::no_card && card.fall_due(7000, report) == status::no_card && card.next_moment(moment) == status::no_card, "its end");
}

void asks_timed(lapd::card &octets, lapd::frame_card &frames) {
    const lapd_lengths lengths = {1000, 10000, 1000, 2000, {}}, wrong = {1000, 10000, 0, 2000, {}};
    lapd::report report;
    uint64_t moment = 7;
    wants(octets.start(config, wrong) == status::wrong_time && frames.start(config, wrong) == status::wrong_time, "wrong lengths");
    wants(octets.start(config, lengths) == status::ok && octets.start(config, lengths) == status::second_start, "a start with timers");
    wants(frames.start(config, lengths) == status::ok && frames.start(config) == status::second_start, "a start for frames with timers");
    asks_timers(octets);
    asks_timers(frames);
    wants(frames.start(config) == status::ok && frames.fall_due(0, report) == status::wrong_card && frames.next_moment(moment) == status::wrong_card, "no timers of its own");
    wants(frames.set_lengths(lengths) == status::wrong_card, "lengths of no timers of its own");
    wants(frames.changed_at(0, service::call, 64, moment) == status::wrong_card, "changes without timers of its own");
    wants(frames.end() == status::ok, "an end without timers");
}

// Calls that take the moment: T200 that is due is told first, and then what came.
void asks_at_moments() {
    lapd::frame_card frames;
    lapd::card octets;
    lapd::report report;
    lapd::octets goes;
    uint8_t room[LAPD_MOST_FRAME], in[2] = {0x7E, 0x7E}, out[2];
    bool is_done = false;
    size_t steps = 0;
    wants(frames.start(lapd::basic_access, lapd::default_lengths) == status::ok && frames.assign(0, 64, report) == status::ok, "a card");
    wants(frames.request_at(5000, 0, LAPD_ESTABLISH, service::call, 64, {}, is_done, report) == status::ok && is_done, "a request");
    wants(frames.frame_at(6000, 0, ua, is_done, report) == status::ok && !is_done && !report.tells(), "T200 before a frame");
    while (frames.next_frame_at(6000, 0, room, goes, report) == status::ok)
        wants(goes.size() == 3 && goes[2] == 0x7F, "SABME");
    wants(frames.frame_at(6000, 0, ua, is_done, report) == status::ok && is_done && report.notes().size() == 1, "the frame");
    wants(frames.next_frame_at(16000, 0, room, goes, report) == status::ok && goes.empty(), "T203 before a frame that goes");
    wants(frames.next_frame_at(15999, 0, room, goes, report) == status::wrong_time, "time that goes back");
    wants(octets.start(lapd::primary_rate, lapd::default_lengths) == status::ok && octets.assign(0, 0, report) == status::ok
              && octets.request_at(5000, 0, LAPD_CHECK, service::call, 0, {}, is_done, report) == status::ok && is_done, "a check");
    wants(octets.exchange_at(6000, 0, in, out, steps, report) == status::ok && steps == 0, "T201 before octets");
    wants(octets.exchange_at(6000, 0, in, out, steps, report) == status::ok && steps > 0, "octets");
}

// A terminal asks for its TEI, gets it, verifies it and loses it; T202 is told by its own name.
void asks_terminal() {
    lapd_config of = config;
    of.side = LAPD_TERMINAL;
    of.seed = 0x1234;
    lapd::frame_card card;
    lapd::clock clock;
    lapd::report report;
    lapd::due due;
    uint8_t room[LAPD_MOST_FRAME];
    lapd::octets goes;
    uint8_t assigned[] = {0xFE, 0xFF, 0x03, 0x0F, 0x29, 0x5D, 0x02, 0x81};
    wants(card.start(of) == status::ok && clock.start(of) == status::ok && clock.set_lengths(1, 2, 3, 4) == status::ok, "a terminal");
    wants(clock.set_lengths(1, 2, 3, 0) == status::wrong_time, "no T202");
    wants(card.ask_tei(0, report) == status::ok && clock.apply(0, report, 0) == status::ok && clock.take_due(4, due) == status::ok, "it asks");
    wants(due.timer.kind == lapd::timer_kind::t202 && card.expire(0, due.timer, report) == status::ok, "T202");
    wants(card.ask_tei(0, report) == status::refused_check_running && card.check(0, 64, report) == status::refused_wrong_side, "refusals");
    wants(card.next_frame(0, room, goes, report) == status::ok && goes.size() == 8 && goes[4] == 0x29 && goes[6] == 1, "its request");
    assigned[6] = 3, assigned[7] = 0xFF;
    wants(card.frame(0, assigned, report) == status::ok && report.notes()[0].kind == lapd::note_kind::denied && report.notes()[0].tei == 127, "denied");
    assigned[6] = 2, assigned[7] = 0x81;
    wants(card.frame(0, assigned, report) == status::ok && report.notes()[0].kind == lapd::note_kind::assigned && report.notes()[0].tei == 64, "its TEI");
    wants(card.verify_tei(0, 65, report) == status::refused_no_link && card.verify_tei(0, 64, report) == status::ok, "it verifies");
    assigned[6] = 6;
    wants(card.frame(0, assigned, report) == status::ok && std::strcmp(report.notes()[0].text(), "removed") == 0, "it is removed");
    wants(report.orders().size() == 1 && report.orders()[0].timer.kind == lapd::timer_kind::t202, "T202 stops");
}

} // namespace

int main() {
    lapd::card octets;
    lapd::frame_card frames;
    lapd::clock clock;
    lapd::report report;
    uint64_t moment = 7;
    wants(octets.start(config) == status::ok && octets.start(config) == status::second_start, "a start");
    wants(frames.start(config) == status::ok && frames.start(config) == status::second_start, "a start for frames");
    wants(octets.assign(1, 64, report) == status::ok && frames.assign(1, 64, report) == status::ok, "a TEI");
    asks_words();
    asks_images();
    asks_terminal();
    asks_frames(frames, report);
    asks_octets(octets, report);
    for (lapd::any_card *card : {static_cast<lapd::any_card *>(&octets), static_cast<lapd::any_card *>(&frames)}) {
        wants(card->data(1, service::call, 64, sabme, report) == status::ok, "data");
        asks(*card);
    }
    asks_timed(octets, frames);
    asks_at_moments();
    wants(octets.start(config) == status::ok, "a start after an end");
    wants(clock.next(moment) == status::no_clock && clock.start(config) == status::ok, "a clock");
    wants(clock.next(moment) == status::no_timer && moment == 7 && clock.end() == status::ok, "no timer");
    return !is_good;
}
