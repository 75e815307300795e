/*
 * lapd_malloc.c: what lapd.S asks for: three functions of memory, and what lapd.h defines as symbols. Written by
 * tools/assembly of Vithrynel; not to be edited.
 *
 * Cards and clocks lie in memory of malloc. A program that has none chooses one of the next two.
 *
 * -DLAPD_HEAP_OCTETS=N         they lie in one static region of so many octets; starts and frees then run one at a time
 * -DLAPD_OWN_MEMORY            they lie in memory of the program's own functions: lapd_memory.h declares the three
 * -DLAPD_MALLOC                malloc also where the compiler says that there is no C library (-ffreestanding)
 * -DLAPD_SYMBOLS               what lapd.h defines inline is exported, too, for languages that read no header of C
 */
#if defined(LAPD_HEAP_OCTETS) + defined(LAPD_OWN_MEMORY) + defined(LAPD_MALLOC) > 1
#error "where do cards lie? Choose one of -DLAPD_HEAP_OCTETS=N, -DLAPD_OWN_MEMORY and -DLAPD_MALLOC"
#endif
#if !defined(LAPD_MALLOC) && !defined(LAPD_OWN_MEMORY) && !defined(LAPD_HEAP_OCTETS)
#if defined(__STDC_HOSTED__) && !__STDC_HOSTED__
#error "where do cards lie? -DLAPD_HEAP_OCTETS=N: in a region of so many octets; or -DLAPD_OWN_MEMORY, or -DLAPD_MALLOC"
#endif
#define LAPD_MALLOC
#endif

#ifdef LAPD_SYMBOLS
#define LAPD_INLINE
#endif
#undef LAPD_CHECKED
#include "lapd.h"

#ifndef LAPD_OWN_MEMORY

#ifdef LAPD_MALLOC
#include <stdlib.h>
#endif

/* Of a shared library nobody else calls these. */
#if defined(__GNUC__) && defined(__ELF__)
#pragma GCC visibility push(hidden)
#endif
#include "lapd_memory.h"

#ifdef LAPD_MALLOC

@c/malloc.c@

#else

@c/blocks.h@

@c/heap.c@

#endif

#if defined(__GNUC__) && defined(__ELF__)
#pragma GCC visibility pop
#endif

#endif
