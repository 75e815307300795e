/*
 * one_terminal.h: a card of frames with one line that is a terminal, with timers of its own or with a clock beside it, for
 * terminals.c. What it tells and sends is kept in words, until it is compared: notes with their TEIs, causes, messages as
 * their type, reference number and Ai (1:1234:127), and the first three octets of other frames (00817F).
 */
#ifndef ONE_TERMINAL_H
#define ONE_TERMINAL_H

#include <stdbool.h>
#include <stdint.h>

#include "lapd.h"

extern lapd_card card;
extern lapd_report report;
extern bool is_timed; /* it keeps its own timers */
extern uint64_t now;  /* in milliseconds */

/* Ends the program, and says why, where it is not so. */
void terminal_wants(bool is, const char *what);

void terminal_starts(lapd_config of);
void terminal_ends(void);

/* What a call answered, which wrote `report`: that is kept in words, and its orders are carried out. */
uint32_t terminal_told(uint32_t status);

/* A message of the network comes: its type, with a reference number and an Ai. */
void terminal_hears(uint8_t type, uint16_t number, uint8_t ai);

/* All frames that wait go. */
void terminal_sends(void);

/* So much time goes by, from one expiry to the next. */
void terminal_waits(uint64_t ms);

/* Compares what was told and sent since then, and in how many milliseconds the first timer falls due: 0 if none runs. */
void terminal_says(const char *words, uint64_t due);

/* What was told and sent is not compared. */
void terminal_forgets(void);

#endif
