/*
 * board.h: what the loop of this example asks of a board. cortex-m4.c and rv32imac.c have it for two that QEMU plays.
 */
#ifndef BOARD_H
#define BOARD_H

#include <stdbool.h>
#include <stddef.h>
#include <stdint.h>

/* Interrupts begin: one each millisecond, and one with each octet that comes. */
void board_begin(void);

/* The board's own, called by its interrupts. */
void millisecond_passed(void);
void octet_came(uint8_t octet);

/* Sends an octet. */
void board_octet(uint8_t octet);

/* Until it is on again, no interrupt comes. */
void board_interrupts(bool are_on);

/* Waits for the next interrupt; one that came since they were off ends it at once. */
void board_wait(void);

/* The program begins: data are in place. */
int main(void);

#endif
