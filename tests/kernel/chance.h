/* chance.h: numbers at random from a seed, the same on every machine (splitmix64). */
#ifndef CHANCE_H
#define CHANCE_H

#include <stdint.h>

/* A number made of another one. */
static inline uint64_t mixed(uint64_t number) {
    number = (number ^ number >> 30) * UINT64_C(0xBF58476D1CE4E5B9);
    number = (number ^ number >> 27) * UINT64_C(0x94D049BB133111EB);
    return number ^ number >> 31;
}

/* The numbers of a run begin with its seed. */
void chance_begin(unsigned seed);

/* The next number: less than `below`, or 0 if that is 0. */
unsigned chance(unsigned below);

#endif
