/*
 * costs.c: what calls cost on a board of examples/board, without an operating system or a C library. For tests alone. It prints
 * on the serial line, a line each, how many octets of stack a start takes, and another call; and how many instructions a poll
 * and its answer. QEMU counts them if its clock goes by them (-icount shift=0).
 *
 * With -DCALLERS the program keeps the timers itself: then its size tells what such a program takes.
 */
#include "board.h"
#include "lapd.h"

enum { POLLS = 1024, PAINTED = 6144, PAINT = 0xA5, TEI = 64 };

static lapd_card card = LAPD_CARD_NONE;
static lapd_report report;
static uint8_t frame[LAPD_MOST_FRAME];
static const uint8_t *came;
static size_t length, came_length;
static uint64_t moment;
static uint32_t status;

void millisecond_passed(void) {}
void octet_came(uint8_t octet) {
    (void)octet;
}

/* ---- What is counted ------------------------------------------------------------------------------------------------- */

#ifdef __arm__
/* The core's tick goes down by one in so many instructions of QEMU: it has 25 MHz, and an instruction takes 1 ns. */
enum { INSTRUCTIONS_OF_TICK = 40 };
static uint32_t ticks(void) {
    return 0xFFFFFF - *(volatile uint32_t *)0xE000E018;
}
static void count(void) {
    *(volatile uint32_t *)0xE000E014 = 0xFFFFFF;
    *(volatile uint32_t *)0xE000E018 = 0;
    *(volatile uint32_t *)0xE000E010 = 1 | 4;
    *(volatile uint32_t *)0x40004010 = 16;
    *(volatile uint32_t *)0x40004008 = 1; /* octets go on the serial line */
}
#define STACK_POINTER(it) __asm__ volatile("mov %0, sp" : "=r"(it))
#else
enum { INSTRUCTIONS_OF_TICK = 1 };
static uint32_t ticks(void) {
    uint32_t it;
    __asm__ volatile("csrr %0, minstret" : "=r"(it));
    return it;
}
static void count(void) {}
#define STACK_POINTER(it) __asm__ volatile("mv %0, sp" : "=r"(it))
#endif

static void tell(const char *what, uint32_t number) {
    uint8_t digits[10];
    unsigned count = 0;
    while (*what != '\0')
        board_octet((uint8_t)*what++);
    do
        digits[count++] = (uint8_t)('0' + number % 10);
    while ((number /= 10) != 0);
    while (count > 0)
        board_octet(digits[--count]);
    board_octet('\n');
}

/* The octets of stack that a call takes. Nothing else runs: no interrupt is on. */
__attribute__((noinline)) static uint32_t taken(void (*call)(void)) {
    uint8_t *here;
    STACK_POINTER(here);
    for (volatile uint8_t *at = here - PAINTED; at < here; at++)
        *at = PAINT;
    call();
    volatile uint8_t *at = here - PAINTED;
    while (at < here && *at == PAINT)
        at++;
    return (uint32_t)(here - at);
}

/* ---- The calls ------------------------------------------------------------------------------------------------------- */

static void start(void) {
    lapd_config config = LAPD_BASIC_ACCESS;
    config.slots = 8;
#ifdef CALLERS
    status = lapd_card_start_frames(&card, &config);
#else
    static const lapd_lengths lengths = LAPD_DEFAULT_LENGTHS;
    status = lapd_card_start_frames_timed(&card, &config, &lengths);
#endif
}

static void assign(void) {
    status = lapd_assign(&card, 0, TEI, &report);
}

static void hear(void) {
    status = lapd_frame(&card, 0, came, came_length, &report);
}

static void say(void) {
    uint32_t line;
    status = lapd_next_waiting(&card, 0, &line);
    if (status == LAPD_OK)
        status = lapd_next_frame(&card, line, frame, sizeof frame, &length, &report);
}

static void ask(void) {
    static const uint8_t message[] = {8, 1, 1};
    status = lapd_data(&card, 0, LAPD_CALL, TEI, message, sizeof message, &report);
}

/* What is due expires: nothing, as all is quick. */
static void expire(void) {
#ifdef CALLERS
    const lapd_timer t203 = {LAPD_T203, LAPD_CALL, TEI};
    if (moment > 10000000)
        status = lapd_expire(&card, 0, &t203, &report);
#else
    status = lapd_fall_due(&card, ++moment, &report) == LAPD_NO_TIMER ? LAPD_OK : LAPD_WRONG_TIME;
    uint64_t until;
    (void)!lapd_next_moment(&card, &until);
#endif
}

static bool is_answered(const uint8_t *octets, size_t count) {
    came = octets;
    came_length = count;
    hear();
    if (status == LAPD_OK)
        expire();
    if (status == LAPD_OK)
        say();
    return status == LAPD_OK;
}

static uint32_t most_of_calls(void) {
    static const uint8_t sabme[] = {0x00, 0x81, 0x7F}, data[] = {0x00, 0x81, 0x00, 0x00, 1, 2, 3};
    const struct {
        void (*call)(void);
        const uint8_t *octets;
        size_t length;
    } calls[] = {{assign, NULL, 0}, {hear, sabme, sizeof sabme}, {say, NULL, 0}, {hear, data, sizeof data}, {say, NULL, 0},
                 {ask, NULL, 0}, {say, NULL, 0}, {expire, NULL, 0}};
    uint32_t most = 0;
    for (size_t i = 0; status == LAPD_OK && i < sizeof calls / sizeof *calls; i++) {
        came = calls[i].octets;
        came_length = calls[i].length;
        uint32_t octets = taken(calls[i].call);
        most = octets > most ? octets : most;
    }
    return most;
}

int main(void) {
    static const uint8_t poll[] = {0x00, 0x81, 0x01, 0x03};
    uint32_t before, right = 0;
    count();
    tell("start ", taken(start));
    tell("calls ", most_of_calls());
    tell("status ", status);
    before = ticks();
    for (uint32_t i = 0; i < POLLS; i++)
        right += is_answered(poll, sizeof poll);
    uint32_t after = ticks();
    tell("right ", right);
    tell("poll ", (after - before) * INSTRUCTIONS_OF_TICK / POLLS);
    for (;;)
        board_wait();
}
