/*
 * lapd.hpp: lapd.h for C++17. A card and a clock end themselves, what is told comes in enums, and octets come in spans. It is
 * this header over lapd.h and no more: no exception, nothing of the standard library, no memory but what a start takes.
 *
 *     lapd::frame_card card;
 *     lapd::report report;
 *     auto layer_3 = [&report] {
 *         for (lapd::note note : report.notes())
 *             tell(report.line(), note.text(), note.tei);
 *     };
 *     lapd::status is = card.start(lapd::basic_access, lapd::default_lengths);
 *     if (is != lapd::status::ok)
 *         return fail(lapd::text(is));
 *     for (bool is_done = false; !is_done; layer_3()) { // each timer that is due by now, and then the frame
 *         is = card.frame_at(now(), 0, octets, is_done, report);
 *         if (is != lapd::status::ok) // wrong_time: the clock was set back
 *             return fail(lapd::text(is));
 *     }
 *
 * lapd.h says of each call what it does, and what the caller promises. What is note.note, timer.timer or order.order there is
 * `kind` here. A status can't go unseen: the compiler warns.
 * A card and a clock are neither copied nor moved, since the handle inside mustn't be.
 */
#ifndef LAPD_HPP
#define LAPD_HPP

#include "lapd.h"

namespace lapd {

// ---- Spans and lists ------------------------------------------------------------------------------------------------

/// Values that lie together and belong to somebody else: an array, or what has data() and size().
template <class T> class span {
public:
    constexpr span() = default;
    constexpr span(T *data, size_t size) : data_(data), size_(size) {}
    span(int, size_t) = delete; // {0x00, 0x81} would be 0x81 octets at null
    template <size_t N> constexpr span(T (&array)[N]) : data_(array), size_(N) {}
    template <class C, class = decltype(static_cast<T *>(static_cast<C *>(nullptr)->data()))>
    constexpr span(C &of) : data_(of.data()), size_(of.size()) {}
    template <class C, class = decltype(static_cast<T *>(static_cast<const C *>(nullptr)->data()))>
    constexpr span(const C &of) : data_(of.data()), size_(of.size()) {}

    constexpr T *data() const { return data_; }
    constexpr size_t size() const { return size_; }
    constexpr bool empty() const { return size_ == 0; }
    constexpr T *begin() const { return data_; }
    constexpr T *end() const { return data_ + size_; }
    constexpr T &operator[](size_t at) const { return data_[at]; }
    constexpr span first(size_t size) const { return {data_, size}; }

private:
    T *data_ = nullptr;
    size_t size_ = 0;
};

using octets = span<const uint8_t>;

/// The place of a span's octets; not null if it has none, as lapd.h asks.
template <class T> T *at(span<T> of) {
    static T none = 0;
    return of.empty() ? &none : of.data();
}

/// Structs of C that are read as values of this header.
template <class Raw, class Value> class list {
public:
    class iterator {
    public:
        constexpr explicit iterator(const Raw *at) : at_(at) {}
        constexpr Value operator*() const { return Value(*at_); }
        constexpr iterator &operator++() {
            ++at_;
            return *this;
        }
        constexpr bool operator!=(const iterator &other) const { return at_ != other.at_; }

    private:
        const Raw *at_;
    };

    constexpr list(const Raw *data, size_t size) : data_(data), size_(size) {}
    constexpr size_t size() const { return size_; }
    constexpr bool empty() const { return size_ == 0; }
    constexpr iterator begin() const { return iterator(data_); }
    constexpr iterator end() const { return iterator(data_ + size_); }
    constexpr Value operator[](size_t at) const { return Value(data_[at]); }

private:
    const Raw *data_;
    size_t size_;
};

// ---- Enums: the numbers of lapd.h -----------------------------------------------------------------------------------

enum class [[nodiscard]] status : uint32_t {
    // tools/names: LAPD_OK
    ok = LAPD_OK,
    refused_bad_tei = LAPD_REFUSED_BAD_TEI,
    refused_no_link = LAPD_REFUSED_NO_LINK,
    refused_wrong_state = LAPD_REFUSED_WRONG_STATE,
    refused_too_long = LAPD_REFUSED_TOO_LONG,
    refused_queue_full = LAPD_REFUSED_QUEUE_FULL,
    refused_pool_full = LAPD_REFUSED_POOL_FULL,
    refused_tei_taken = LAPD_REFUSED_TEI_TAKEN,
    refused_table_full = LAPD_REFUSED_TABLE_FULL,
    refused_check_running = LAPD_REFUSED_CHECK_RUNNING,
    refused_control_full = LAPD_REFUSED_CONTROL_FULL,
    refused_wrong_side = LAPD_REFUSED_WRONG_SIDE,
    no_card = LAPD_NO_CARD,
    no_clock = LAPD_NO_CLOCK,
    second_start = LAPD_SECOND_START,
    wrong_line = LAPD_WRONG_LINE,
    wrong_service = LAPD_WRONG_SERVICE,
    wrong_tei = LAPD_WRONG_TEI,
    wrong_timer = LAPD_WRONG_TIMER,
    wrong_request = LAPD_WRONG_REQUEST,
    wrong_length = LAPD_WRONG_LENGTH,
    wrong_order = LAPD_WRONG_ORDER,
    wrong_time = LAPD_WRONG_TIME,
    wrong_pointer = LAPD_WRONG_POINTER,
    no_memory = LAPD_NO_MEMORY,
    no_timer = LAPD_NO_TIMER,
    no_place = LAPD_NO_PLACE,
    no_more_links = LAPD_NO_MORE_LINKS,
    wrong_card = LAPD_WRONG_CARD,
    wrong_cause = LAPD_WRONG_CAUSE,
    no_frame = LAPD_NO_FRAME,
    bad_lines = LAPD_BAD_LINES,
    bad_terminals = LAPD_BAD_TERMINALS,
    bad_k = LAPD_BAD_K,
    bad_k16 = LAPD_BAD_K16,
    bad_queue = LAPD_BAD_QUEUE,
    bad_unit_queue = LAPD_BAD_UNIT_QUEUE,
    bad_control = LAPD_BAD_CONTROL,
    bad_slots = LAPD_BAD_SLOTS,
    bad_n201 = LAPD_BAD_N201,
    bad_n200 = LAPD_BAD_N200,
    bad_side = LAPD_BAD_SIDE,
    bad_sapi = LAPD_BAD_SAPI,
    bad_reading = LAPD_BAD_READING,
    bad_reserved = LAPD_BAD_RESERVED,
    bad_image = LAPD_BAD_IMAGE,
    frame_short = LAPD_FRAME_SHORT,
    frame_extension = LAPD_FRAME_EXTENSION,
    frame_undefined = LAPD_FRAME_UNDEFINED,
    frame_size = LAPD_FRAME_SIZE,
    // tools/names: end
};

enum class service : uint8_t {
    // tools/names: LAPD_CALL
    call = LAPD_CALL,
    packet = LAPD_PACKET,
    // tools/names: end
};

enum class note_kind : uint8_t {
    // tools/names: LAPD_ESTABLISH_INDICATION
    establish_indication = LAPD_ESTABLISH_INDICATION,
    establish_confirm = LAPD_ESTABLISH_CONFIRM,
    release_indication = LAPD_RELEASE_INDICATION,
    release_confirm = LAPD_RELEASE_CONFIRM,
    data_indication = LAPD_DATA_INDICATION,
    unit_indication = LAPD_UNIT_INDICATION,
    error_indication = LAPD_ERROR_INDICATION,
    assigned = LAPD_ASSIGNED,
    removed = LAPD_REMOVED,
    doubled = LAPD_DOUBLED,
    xid_indication = LAPD_XID_INDICATION,
    denied = LAPD_DENIED,
    unassigned = LAPD_UNASSIGNED,
    remove_all = LAPD_REMOVE_ALL,
    // tools/names: end
};

enum class timer_kind : uint8_t {
    // tools/names: LAPD_T200
    t200 = LAPD_T200,
    t203 = LAPD_T203,
    t201 = LAPD_T201,
    t202 = LAPD_T202,
    // tools/names: end
};

enum class order_kind : uint8_t {
    // tools/names: LAPD_START
    start = LAPD_START,
    stop = LAPD_STOP,
    // tools/names: end
};

/// The frames of table 5.
enum class frame_kind : uint8_t {
    // tools/names: LAPD_KIND_I
    kind_i = LAPD_KIND_I,
    kind_rr = LAPD_KIND_RR,
    kind_rnr = LAPD_KIND_RNR,
    kind_rej = LAPD_KIND_REJ,
    kind_sabme = LAPD_KIND_SABME,
    kind_disc = LAPD_KIND_DISC,
    kind_ui = LAPD_KIND_UI,
    kind_ua = LAPD_KIND_UA,
    kind_dm = LAPD_KIND_DM,
    kind_frmr = LAPD_KIND_FRMR,
    kind_xid = LAPD_KIND_XID,
    // tools/names: end
};

enum class cause : uint8_t {
    none = 0,
    // tools/names: LAPD_ABORT
    abort = LAPD_ABORT,
    ragged = LAPD_RAGGED,
    too_short = LAPD_SHORT,
    fcs = LAPD_FCS,
    extension = LAPD_EXTENSION,
    sapi = LAPD_SAPI,
    tei = LAPD_TEI,
    unserved = LAPD_UNSERVED,
    // tools/names: end
};

/// Of a link; `none` where the TEI is not on the line.
enum class state : uint8_t {
    none = 0,
    tei_assigned = 4,
    awaiting_establishment = 5,
    awaiting_release = 6,
    established = 7,
    timer_recovery = 8
};

inline const char *text(status of) { return lapd_status_text(static_cast<uint32_t>(of)); }
inline const char *text(cause of) { return lapd_cause_text(static_cast<uint8_t>(of)); }

/// What octets say as a frame, without a check, as a side sent them (LAPD_NETWORK, LAPD_USER or LAPD_TERMINAL), in fields; or
/// status::frame_short to status::frame_size, if they are none.
inline status frame_read(octets of, uint16_t side, lapd_fields &to) {
    return static_cast<status>(lapd_frame_read(at(of), of.size(), side, &to));
}

/// What octets say, without a check, as a side sent them (LAPD_NETWORK, LAPD_USER or LAPD_TERMINAL): the first line that
/// `lapdsim frame` prints of them, and a message of TEI management in words, in front of the room, with a 0 at its end.
/// LAPD_MOST_TEXT is room for each frame of a card.
inline status frame_text(octets of, uint16_t side, span<char> to) {
    return static_cast<status>(lapd_frame_text(at(of), of.size(), side, at(to), to.size()));
}

/// Whether a request was refused.
constexpr bool is_refusal(status of) {
    return of == status::refused_wrong_side || (of >= status::refused_bad_tei && of <= status::refused_control_full);
}

// ---- The usual configurations -----------------------------------------------------------------------------------------

/// One line, as the network's side; as lapd.h says at LAPD_BASIC_ACCESS. `lapd_config mine = lapd::basic_access;` is a copy to
/// change.
inline constexpr lapd_config basic_access = LAPD_BASIC_ACCESS;
inline constexpr lapd_config primary_rate = LAPD_PRIMARY_RATE;
inline constexpr lapd_lengths default_lengths = LAPD_DEFAULT_LENGTHS;

/// So many octets the image of a card or of a clock has at most; 0 if a field is out of range.
inline uint32_t image_octets(const lapd_config &config) { return lapd_image_octets(&config); }

// ---- What is told ---------------------------------------------------------------------------------------------------

struct note {
    constexpr explicit note(const lapd_note &of)
        : kind(static_cast<note_kind>(of.note)), service(static_cast<lapd::service>(of.service)), tei(of.tei),
          error(static_cast<char>(of.error)) {}

    /// Its name in docs/FORMAT.md, with -16 for a packet link.
    const char *text() const {
        const lapd_note it = raw();
        return lapd_note_text(&it);
    }
    /// The same with the SAPI of a packet link at a card of this configuration; 29 is room enough.
    status text(const lapd_config &config, span<char> to) const {
        const lapd_note it = raw();
        return static_cast<status>(lapd_note_text_of(&it, &config, at(to), to.size()));
    }
    constexpr lapd_note raw() const {
        return {static_cast<uint8_t>(kind), static_cast<uint8_t>(service), tei, static_cast<uint8_t>(error), {}};
    }

    note_kind kind;
    lapd::service service;
    uint8_t tei;
    char error; ///< of an error indication its letter, else 0
};

struct timer {
    constexpr explicit timer(const lapd_timer &of)
        : kind(static_cast<timer_kind>(of.timer)), service(static_cast<lapd::service>(of.service)), tei(of.tei) {}
    constexpr lapd_timer raw() const { return {static_cast<uint8_t>(kind), static_cast<uint8_t>(service), tei}; }

    timer_kind kind;
    lapd::service service;
    uint8_t tei;
};

struct order {
    constexpr explicit order(const lapd_order &of) : kind(static_cast<order_kind>(of.order)), timer(of.timer) {}
    constexpr lapd_order raw() const { return {static_cast<uint8_t>(kind), timer.raw()}; }

    order_kind kind;
    lapd::timer timer;
};

/// What an event led to. It is written by the next call that it is handed to.
class report {
public:
    list<lapd_note, note> notes() const { return {raw_.notes, raw_.note_count}; }
    list<lapd_order, order> orders() const { return {raw_.orders, raw_.order_count}; }
    lapd::cause cause() const { return static_cast<lapd::cause>(raw_.cause); }
    unsigned lost() const { return raw_.lost; }
    /// How many contents that were granted are given up, the latest: of call control, and of the second service.
    unsigned given_up() const { return raw_.given_up; }
    unsigned given_up_16() const { return raw_.given_up_16; }
    /// The TEI of these links; 255 if both numbers are 0.
    uint8_t given_up_tei() const { return raw_.given_up_tei; }
    bool begun() const { return raw_.begun != 0; }
    bool delivered() const { return raw_.delivered != 0; }
    octets contents() const { return {raw_.contents, raw_.length}; }
    /// Of the next frame: whether another waits on its line.
    bool more() const { return raw_.more != 0; }
    /// Whether a link that was refused contents for its full queue has room again; and which.
    bool reopened() const { return raw_.reopened != 0; }
    service reopened_service() const { return static_cast<service>(raw_.reopened_service); }
    uint8_t reopened_tei() const { return raw_.reopened_tei; }
    /// Of fall_due: whether a timer expired, and which.
    bool expired() const { return raw_.expired.timer != 0; }
    timer expired_timer() const { return timer(raw_.expired); }
    /// The line at which the event happened.
    uint32_t line() const { return raw_.line; }
    bool tells() const { return lapd_tells(&raw_); }
    lapd_report *raw() { return &raw_; }
    const lapd_report *raw() const { return &raw_; }

private:
    lapd_report raw_ = {};
};

/// A link of a line, and how much room one has.
struct link {
    lapd::service service;
    uint8_t tei;
    lapd::state state;
};

struct room {
    uint32_t pool;
    uint8_t queue, va;
};

// ---- Cards ----------------------------------------------------------------------------------------------------------

/// What a card of either kind does.
class any_card {
public:
    any_card(const any_card &) = delete;
    any_card &operator=(const any_card &) = delete;

    status end() { return of(lapd_card_free(&card_)); }
    /// The image of the card, in front of a room for which image_octets tells enough.
    status save(span<uint8_t> room, octets &image) {
        size_t length = 0;
        const status is = of(lapd_card_save(&card_, at(room), room.size(), &length));
        if (is == status::ok)
            image = octets(room.data(), length);
        return is;
    }
    /// A start: the card of an image goes on. One of the other kind does, too, and answers status::wrong_card to calls of this one.
    status restore(octets image) { return of(lapd_card_restore(&card_, at(image), image.size())); }

    status expire(uint32_t line, const timer &expired, report &to) {
        const lapd_timer raw = expired.raw();
        return of(lapd_expire(&card_, line, &raw, to.raw()));
    }
    // Of a card that keeps its own timers; at another status::wrong_card.
    /// The time is now this moment, and what is due first falls due; status::no_timer if nothing is due, and status::wrong_time of
    /// a moment before the last one.
    status fall_due(uint64_t now, report &to) { return of(lapd_fall_due(&card_, now, to.raw())); }
    /// The moment that was told last, or that of its image; 0 before.
    status now(uint64_t &moment) { return of(lapd_now(&card_, &moment)); }
    /// When the first timer falls due; status::no_timer if none runs.
    status next_moment(uint64_t &moment) { return of(lapd_next_moment(&card_, &moment)); }
    /// When the state of a link changed last, where the coming of its TEI counts; 0 if that was before a moment was told.
    status changed_at(uint32_t line, service by, uint8_t tei, uint64_t &moment) {
        return of(lapd_changed_at(&card_, line, number(by), tei, &moment));
    }
    /// Timers that are started from now on run so long, and those that run as long as they were to.
    status set_lengths(const lapd_lengths &lengths) { return of(lapd_card_set_lengths(&card_, &lengths)); }
    /// A request (LAPD_ESTABLISH to LAPD_VERIFY_TEI) with its moment: while a timer is due, that falls due, and is_done is false;
    /// then the request is made, and it is true. So call it until it is done.
    status request_at(uint64_t now, uint32_t line, uint8_t request, service by, uint8_t tei, octets contents, bool &is_done,
                      report &to) {
        return of(lapd_request_at(&card_, now, line, request, number(by), tei, contents.data(), contents.size(), &is_done,
                                  to.raw()));
    }

    status establish(uint32_t line, service by, uint8_t tei, report &to) {
        return of(lapd_establish(&card_, line, number(by), tei, to.raw()));
    }
    status release(uint32_t line, service by, uint8_t tei, report &to) {
        return of(lapd_release(&card_, line, number(by), tei, to.raw()));
    }
    /// The contents may be those of the report.
    status data(uint32_t line, service by, uint8_t tei, octets contents, report &to) {
        return of(lapd_data(&card_, line, number(by), tei, contents.data(), contents.size(), to.raw()));
    }
    status unit(uint32_t line, service by, uint8_t tei, octets contents, report &to) {
        return of(lapd_unit(&card_, line, number(by), tei, contents.data(), contents.size(), to.raw()));
    }
    status assign(uint32_t line, uint8_t tei, report &to) { return of(lapd_assign(&card_, line, tei, to.raw())); }
    status remove(uint32_t line, uint8_t tei, report &to) { return of(lapd_remove(&card_, line, tei, to.raw())); }
    status check(uint32_t line, uint8_t tei, report &to) { return of(lapd_check(&card_, line, tei, to.raw())); }
    status disown(uint32_t line, uint8_t tei, report &to) { return of(lapd_disown(&card_, line, tei, to.raw())); }
    /// Of a terminal: it asks the network for a TEI, or to check one of its own; at another status::refused_wrong_side.
    status ask_tei(uint32_t line, report &to) { return of(lapd_ask_tei(&card_, line, to.raw())); }
    status verify_tei(uint32_t line, uint8_t tei, report &to) { return of(lapd_verify_tei(&card_, line, tei, to.raw())); }
    status busy(uint32_t line, service by, uint8_t tei, report &to) {
        return of(lapd_busy(&card_, line, number(by), tei, to.raw()));
    }
    status ready(uint32_t line, service by, uint8_t tei, report &to) {
        return of(lapd_ready(&card_, line, number(by), tei, to.raw()));
    }
    status deactivate(uint32_t line, service by, uint8_t tei, report &to) {
        return of(lapd_deactivate(&card_, line, number(by), tei, to.raw()));
    }
    /// The line is down: gives up its next link from this place on, which begins as 0, and after the last what waits and is of
    /// none; then status::no_more_links.
    status line_down(uint32_t line, uint8_t &place, report &to) { return of(lapd_line_down(&card_, line, &place, to.raw())); }

    status state_of(uint32_t line, service by, uint8_t tei, state &to) {
        uint8_t raw = 0;
        const status is = of(lapd_state(&card_, line, number(by), tei, &raw));
        if (is == status::ok)
            to = static_cast<state>(raw);
        return is;
    }
    /// The link of a line from this place on, which is then the one after it; it begins as 0.
    status next_link(uint32_t line, uint8_t &place, link &to) {
        lapd_link raw = {};
        const status is = of(lapd_next_link(&card_, line, &place, &raw));
        if (is == status::ok)
            to = {static_cast<service>(raw.service), raw.tei, static_cast<state>(raw.state)};
        return is;
    }
    status room_of(uint32_t line, service by, uint8_t tei, room &to) {
        struct lapd_room raw = {};
        const status is = of(lapd_room(&card_, line, number(by), tei, &raw));
        if (is == status::ok)
            to = {raw.pool, raw.queue, raw.va};
        return is;
    }
    status counters(uint32_t line, struct lapd_counters &to) { return of(lapd_counters(&card_, line, &to)); }
    status link_counters(uint32_t line, service by, uint8_t tei, struct lapd_link_counters &to) {
        return of(lapd_link_counters(&card_, line, number(by), tei, &to));
    }
    status stored(uint32_t &to) { return of(lapd_stored(&card_, &to)); }
    status limit(uint32_t &to) { return of(lapd_limit(&card_, &to)); }
    status lines(uint32_t &to) { return of(lapd_lines(&card_, &to)); }

protected:
    any_card() = default;
    ~any_card() { (void)lapd_card_free(&card_); }
    static constexpr status of(uint32_t number) { return static_cast<status>(number); }
    static constexpr uint8_t number(service by) { return static_cast<uint8_t>(by); }
    lapd_card card_ = LAPD_CARD_NONE;
};

/// A card of octets.
class card : public any_card {
public:
    status start(const lapd_config &config) { return of(lapd_card_start(&card_, &config)); }
    /// With lengths of timers it keeps its own.
    status start(const lapd_config &config, const lapd_lengths &lengths) {
        return of(lapd_card_start_timed(&card_, &config, &lengths));
    }
    status octet(uint32_t line, uint8_t came, report &to) { return of(lapd_octet(&card_, line, came, to.raw())); }
    status pull(uint32_t line, uint8_t &goes, report &to) { return of(lapd_pull(&card_, line, &goes, to.raw())); }
    status exchange(uint32_t line, octets in, span<uint8_t> out, size_t &steps, report &to) {
        return of(lapd_exchange(&card_, line, at(in), in.size(), at(out), out.size(), &steps, to.raw()));
    }
    /// With the moment, at a card that keeps its own timers: no step is made while a timer is due, which falls due.
    status exchange_at(uint64_t now, uint32_t line, octets in, span<uint8_t> out, size_t &steps, report &to) {
        return of(lapd_exchange_at(&card_, now, line, at(in), in.size(), at(out), out.size(), &steps, to.raw()));
    }
    status begun(uint32_t line, lapd_head &to) { return of(lapd_begun(&card_, line, &to)); }
    status heard(uint32_t line, lapd_head &to) { return of(lapd_heard(&card_, line, &to)); }
    /// The frame that a pull began last, whole, in front of a room of LAPD_MOST_FRAME octets; status::no_frame if none was begun.
    status begun_frame(uint32_t line, span<uint8_t> room, octets &begun) {
        size_t length = 0;
        const status is = of(lapd_begun_frame(&card_, line, at(room), room.size(), &length));
        if (is == status::ok)
            begun = octets(room.data(), length);
        return is;
    }
    /// The frame that the latest octet has ended, or of one that is too long its first four octets; status::no_frame if it has
    /// ended none.
    status heard_frame(uint32_t line, span<uint8_t> room, octets &heard) {
        size_t length = 0;
        const status is = of(lapd_heard_frame(&card_, line, at(room), room.size(), &length));
        if (is == status::ok)
            heard = octets(room.data(), length);
        return is;
    }
};

/// A card of frames.
class frame_card : public any_card {
public:
    status start(const lapd_config &config) { return of(lapd_card_start_frames(&card_, &config)); }
    /// With lengths of timers it keeps its own.
    status start(const lapd_config &config, const lapd_lengths &lengths) {
        return of(lapd_card_start_frames_timed(&card_, &config, &lengths));
    }
    status frame(uint32_t line, octets came, report &to) {
        return of(lapd_frame(&card_, line, at(came), came.size(), to.raw()));
    }
    /// With the moment, at a card that keeps its own timers: is_done is false after a timer that falls due, and true after the frame.
    status frame_at(uint64_t now, uint32_t line, octets came, bool &is_done, report &to) {
        return of(lapd_frame_at(&card_, now, line, at(came), came.size(), &is_done, to.raw()));
    }
    status failed(uint32_t line, cause why, report &to) {
        return of(lapd_frame_failed(&card_, line, static_cast<uint8_t>(why), to.raw()));
    }
    /// The next frame lies in front of the room; status::no_frame if none waits.
    status next_frame(uint32_t line, span<uint8_t> room, octets &goes, report &to) {
        size_t length = 0;
        const status is = of(lapd_next_frame(&card_, line, at(room), room.size(), &length, to.raw()));
        if (is == status::ok)
            goes = {room.data(), length};
        return is;
    }
    /// With the moment, at a card that keeps its own timers: `goes` is empty after a timer that falls due.
    status next_frame_at(uint64_t now, uint32_t line, span<uint8_t> room, octets &goes, report &to) {
        size_t length = 0;
        const status is = of(lapd_next_frame_at(&card_, now, line, at(room), room.size(), &length, to.raw()));
        if (is == status::ok)
            goes = {room.data(), length};
        return is;
    }
    /// The first line on which a frame waits, from one on; status::no_frame if there is none.
    status next_waiting(uint32_t from, uint32_t &line) { return of(lapd_next_waiting(&card_, from, &line)); }
};

// ---- A clock --------------------------------------------------------------------------------------------------------

/// A timer that fell due at a line.
struct due {
    uint32_t line = 0;
    lapd::timer timer = lapd::timer(lapd_timer{});
};

/// The timers of all lines; each moment is a number of milliseconds that the caller hands in.
class clock {
public:
    clock() = default;
    clock(const clock &) = delete;
    clock &operator=(const clock &) = delete;
    ~clock() { (void)lapd_clock_free(&clock_); }

    status start(const lapd_config &config) { return of(lapd_clock_start(&clock_, &config)); }
    status end() { return of(lapd_clock_free(&clock_)); }
    /// The image of the clock, in front of a room for which image_octets tells enough; and a start of the clock of one.
    status save(span<uint8_t> room, octets &image) {
        size_t length = 0;
        const status is = of(lapd_clock_save(&clock_, at(room), room.size(), &length));
        if (is == status::ok)
            image = octets(room.data(), length);
        return is;
    }
    status restore(octets image) { return of(lapd_clock_restore(&clock_, at(image), image.size())); }
    status set_lengths(uint32_t t200, uint32_t t203, uint32_t t201, uint32_t t202 = 2000) {
        return of(lapd_clock_set_lengths(&clock_, t200, t203, t201, t202));
    }
    status apply(uint32_t line, const order &one, uint64_t now) {
        const lapd_order raw = one.raw();
        return of(lapd_clock_apply(&clock_, line, &raw, now));
    }
    status apply(uint32_t line, const report &all, uint64_t now) {
        return of(lapd_clock_apply_report(&clock_, line, all.raw(), now));
    }
    /// status::no_timer if none is due.
    status take_due(uint64_t now, due &to) {
        lapd_due raw = {};
        const status is = of(lapd_clock_due(&clock_, now, &raw));
        if (is == status::ok)
            to = {raw.line, timer(raw.timer)};
        return is;
    }
    status next(uint64_t &moment) { return of(lapd_clock_next(&clock_, &moment)); }

private:
    static constexpr status of(uint32_t number) { return static_cast<status>(number); }

    lapd_clock clock_ = LAPD_CLOCK_NONE;
};

} // namespace lapd

#endif
