/*
 * plan.h: what a run is like. Its seed chooses each number, unless a word gives it, as `loss=5`. And the numbers at random of the
 * run (chance.h).
 */
#ifndef PLAN_H
#define PLAN_H

#include <stdbool.h>
#include <stdio.h>

/* Which side the kernel is. Ours is the other. */
enum { KERNEL_TE, KERNEL_NT, KERNEL_TE_E1, KERNEL_NT_E1 };

/* What spoils the messages of which the judge is told: one in sixty is left out, told twice, or changed. */
enum { SPOILED_LEFT_OUT = 1, SPOILED_TWICE = 2, SPOILED_CHANGED = 3 };

typedef struct {
    int side;     /* the kernel's */
    int loss;     /* so many of 100 frames are lost each way */
    int k;        /* the window of our links */
    int terms;    /* terminals of a basic access: the kernel's, or our cards */
    int devs;     /* the kernel's devices, which its terminals share */
    int layer1;   /* 1: ours is at a socket of layer 1, at a device of its own; 0: at the UDP of the kernel's devices */
    int remove;   /* 1: TEIs are removed */
    int restart;  /* 1: our network is started anew */
    int busy;     /* 1: our layer 3 takes no data now and then */
    int release;  /* 1: links are released */
    int sapi16;   /* 1: there are links of the second service, too */
    int pending;  /* 1: the kernel's layer 3 releases links that it has not got yet, which mISDN forgets (README) */
    int audit;    /* 1: TEIs are checked, or verified */
    int fixed;    /* 1: TEIs are set by hand */
    int spoil;    /* 0, or what spoils */
    int log;      /* so many lines are shown even of a good run */
} plan_numbers;

extern plan_numbers plan;

bool ours_is_network(void);
bool is_primary(void);

/* Takes a word for all runs, as `side=te` or `loss=5`; false if it is none. */
bool plan_word(const char *word);

/* What the run of this seed is like. */
void plan_choose(unsigned seed);

/* All numbers of it. */
void plan_print(FILE *to);

#endif
