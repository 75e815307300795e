/*
 * cortex-m4.c: the board mps2-an386 of QEMU, an ARM Cortex-M4 of 25 MHz: its vectors, its tick, and a serial line.
 */
#include "board.h"

#define REGISTER(at) (*(volatile uint32_t *)(at))

/* The serial line, as CMSDK has it. */
#define UART_DATA REGISTER(0x40004000)
#define UART_STATE REGISTER(0x40004004)
#define UART_CONTROL REGISTER(0x40004008)
#define UART_INTERRUPTS REGISTER(0x4000400C)
#define UART_DIVISOR REGISTER(0x40004010)
/* The core's tick, and which interrupts are on. */
#define TICK_CONTROL REGISTER(0xE000E010)
#define TICK_RELOAD REGISTER(0xE000E014)
#define TICK_NOW REGISTER(0xE000E018)
#define INTERRUPTS_ON REGISTER(0xE000E100)

enum { HERTZ = 25000000, UART_CAME = 0 };

extern uint32_t stack_end, data_from, data_begin, data_end, zeros_begin, zeros_end;

void begin(void);

static void stop(void) {
    for (;;)
        ;
}

static void uart_came(void) {
    UART_INTERRUPTS = 2;
    while (UART_STATE & 2)
        octet_came((uint8_t)UART_DATA);
}

typedef void vector(void);
/* The stack, the beginning, faults, the tick; then interrupts of the board. */
__attribute__((section(".vectors"), used)) static vector *const vectors[] = {
    (vector *)&stack_end, begin, stop, stop, stop, stop, stop, NULL, NULL, NULL, NULL, stop, stop, NULL, stop, millisecond_passed, uart_came};

void begin(void) {
    const uint32_t *from = &data_from;
    for (uint32_t *to = &data_begin; to < &data_end;)
        *to++ = *from++;
    for (uint32_t *to = &zeros_begin; to < &zeros_end;)
        *to++ = 0;
    main();
    stop();
}

void board_begin(void) {
    UART_DIVISOR = 16;
    UART_CONTROL = 1 | 2 | 8; /* octets go and come, and one that came interrupts */
    INTERRUPTS_ON = 1u << UART_CAME;
    TICK_RELOAD = HERTZ / 1000 - 1;
    TICK_NOW = 0;
    TICK_CONTROL = 1 | 2 | 4; /* of the processor's clock, with interrupts */
}

void board_octet(uint8_t octet) {
    while (UART_STATE & 1)
        ;
    UART_DATA = octet;
}

void board_interrupts(bool are_on) {
    if (are_on)
        __asm__ volatile("cpsie i\n\tisb" ::: "memory");
    else
        __asm__ volatile("cpsid i" ::: "memory");
}

void board_wait(void) {
    __asm__ volatile("wfi" ::: "memory");
}
