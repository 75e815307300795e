/*
 * rv32imac.c: the board virt of QEMU, a RISC-V of 32 bits: its traps, its tick, and a serial line.
 */
#include "board.h"

#define REGISTER(at) (*(volatile uint32_t *)(at))
#define OCTET(at) (*(volatile uint8_t *)(at))

/* The serial line, as the 16550 has it. */
#define UART_DATA OCTET(0x10000000)
#define UART_INTERRUPTS OCTET(0x10000001)
#define UART_STATE OCTET(0x10000005)
/* The clock: its time, and when it interrupts. */
#define TIME_LOW REGISTER(0x0200BFF8)
#define TIME_HIGH REGISTER(0x0200BFFC)
#define TICK_LOW REGISTER(0x02004000)
#define TICK_HIGH REGISTER(0x02004004)
/* Interrupts of the board. */
#define PRIORITY(which) REGISTER(0x0C000000 + 4 * (which))
#define INTERRUPTS_ON REGISTER(0x0C002000)
#define THRESHOLD REGISTER(0x0C200000)
#define CLAIM REGISTER(0x0C200004)

enum { HERTZ = 10000000, UART_CAME = 10, OF_TICK = 7, OF_BOARD = 11 };

extern uint32_t data_from, data_begin, data_end, zeros_begin, zeros_end;

void begin(void);

/* The first instructions: a stack, and the beginning. */
__asm__(".section .vectors, \"ax\"\n"
        ".globl start\n"
        "start:\n"
        "    la sp, stack_end\n"
        "    j begin\n"
        ".text\n");

static void tick_after(uint32_t ticks) {
    static uint64_t next;
    next += ticks;
    TICK_HIGH = UINT32_MAX;
    TICK_LOW = (uint32_t)next;
    TICK_HIGH = (uint32_t)(next >> 32);
}

__attribute__((interrupt, aligned(4))) static void trap(void) {
    uint32_t cause;
    __asm__ volatile("csrr %0, mcause" : "=r"(cause));
    if (cause == (1u << 31 | OF_TICK)) {
        tick_after(HERTZ / 1000);
        millisecond_passed();
    } else if (cause == (1u << 31 | OF_BOARD)) {
        uint32_t which = CLAIM;
        while (UART_STATE & 1)
            octet_came(UART_DATA);
        CLAIM = which;
    } else {
        for (;;) /* a fault */
            ;
    }
}

void begin(void) {
    const uint32_t *from = &data_from;
    for (uint32_t *to = &data_begin; to < &data_end;)
        *to++ = *from++;
    for (uint32_t *to = &zeros_begin; to < &zeros_end;)
        *to++ = 0;
    main();
    for (;;)
        ;
}

void board_begin(void) {
    UART_INTERRUPTS = 1; /* an octet that came interrupts */
    PRIORITY(UART_CAME) = 1;
    INTERRUPTS_ON = 1u << UART_CAME;
    THRESHOLD = 0;
    tick_after(HERTZ / 1000);
    __asm__ volatile("csrw mtvec, %0" ::"r"(trap));
    __asm__ volatile("csrw mie, %0" ::"r"(1u << OF_TICK | 1u << OF_BOARD));
    board_interrupts(true);
}

void board_octet(uint8_t octet) {
    while (!(UART_STATE & 0x20))
        ;
    UART_DATA = octet;
}

void board_interrupts(bool are_on) {
    if (are_on)
        __asm__ volatile("csrsi mstatus, 8" ::: "memory");
    else
        __asm__ volatile("csrci mstatus, 8" ::: "memory");
}

void board_wait(void) {
    __asm__ volatile("wfi" ::: "memory");
}
