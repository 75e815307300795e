/*
 * steps.h: how many instructions a call takes, on x86-64: the processor stops after each one. For tests alone.
 */
#ifndef STEPS_H
#define STEPS_H

/* The instructions of a function that is called once. */
unsigned long steps_of(void (*called)(void));

/* A function of one instruction: it returns. What it answers is undefined. */
void steps_return(void);

#endif
