/* steps.c: see steps.h. With the trap flag set, a signal comes after each instruction. */
#define _XOPEN_SOURCE 700

#include "steps.h"

#include <signal.h>
#include <stdio.h>
#include <stdlib.h>

__asm__(".text\n\t.globl steps_return\nsteps_return:\n\tret");

static volatile unsigned long steps;

static void on_step(int number) {
    (void)number;
    steps++;
}

static void nothing(void) {}

/* All from the flag's setting to its end. Flags go through the stack, below the 128 octets that a function may use there unasked. */
__attribute__((noinline)) static unsigned long counted(void (*called)(void)) {
    steps = 0;
    __asm__ volatile("lea -128(%%rsp), %%rsp\n\tpushfq\n\torq $0x100, (%%rsp)\n\tpopfq\n\tlea 128(%%rsp), %%rsp" ::: "memory", "cc");
    called();
    __asm__ volatile("lea -128(%%rsp), %%rsp\n\tpushfq\n\tandq $~0x100, (%%rsp)\n\tpopfq\n\tlea 128(%%rsp), %%rsp" ::: "memory", "cc");
    return steps;
}

unsigned long steps_of(void (*called)(void)) {
    static unsigned long around;
    if (around == 0) {
        const struct sigaction action = {.sa_handler = on_step};
        if (sigaction(SIGTRAP, &action, NULL) != 0) {
            perror("steps");
            exit(1);
        }
        around = counted(nothing) - 1; /* except its return */
    }
    return counted(called) - around;
}
