/* ---- What may be chosen ------------------------------------------------------------------------------------------ */

/*
 * Cards and clocks lie in memory of malloc. A program that has none chooses one of the next two.
 *
 * -DLAPD_HEAP_OCTETS=N         they lie in one static region of so many octets; starts and frees then run one at a time
 * -DLAPD_OWN_MEMORY            they lie in memory of the program's rattle_alloc and rattle_dealloc: lapd_memory.h declares them
 * -DLAPD_MALLOC                malloc also where the compiler says that there is no C library (-ffreestanding)
 * -DLAPD_NO_IMAGES             cards and clocks are not saved: they take lapd_image_octets(&config) octets less, the room for an
 *                              image, and the calls that save and restore are not there
 * -DLAPD_NO_TEXT               lapd_frame_text is not there; the other texts are lapd.h's, and each is there if it is asked for
 * -DLAPD_NO_OCTETS             cards are of frames alone: the calls are not there that start one of octets, take octets or give them
 * -DLAPD_SYMBOLS               what lapd.h defines inline is exported, too, for languages that read no header of C
 * -DLAPD_CHECKED               where it would end the program by abort(), it says why before, on standard error
 * -DLAPD_BIG_END_FIRST=0|1     the order of octets, where the compiler does not tell it as GCC and Clang do
 * -DLAPD_UNTESTED              accesses to a card's memory are not tested: the proofs say that each is inside of it, if the
 *                              steps after them are right, and if the stack in it suffices, which is only tested
 */
#if defined(LAPD_HEAP_OCTETS) + defined(LAPD_OWN_MEMORY) + defined(LAPD_MALLOC) > 1
#error "where do cards lie? Choose one of -DLAPD_HEAP_OCTETS=N, -DLAPD_OWN_MEMORY and -DLAPD_MALLOC"
#endif
#if !defined(LAPD_MALLOC) && !defined(LAPD_OWN_MEMORY) && !defined(LAPD_HEAP_OCTETS)
#if defined(__STDC_HOSTED__) && !__STDC_HOSTED__
#error "where do cards lie? -DLAPD_HEAP_OCTETS=N: in a region of so many octets; or -DLAPD_OWN_MEMORY, or -DLAPD_MALLOC"
#endif
#define LAPD_MALLOC
#endif

#if defined(LAPD_SYMBOLS) && defined(LAPD_NO_OCTETS)
#error "LAPD_SYMBOLS exports calls of octets, and LAPD_NO_OCTETS leaves out what they call"
#endif

#ifdef __GNUC__
#pragma GCC diagnostic ignored "-Wunused-function" /* of what was made, some is for tests, and some for what was chosen */
#endif
#ifdef LAPD_NO_IMAGES
#define IMAGE_ROOM(octets) ((void)(octets), 0)
#else
#define IMAGE_ROOM(octets) (octets)
#endif
#ifdef LAPD_SYMBOLS
#define LAPD_INLINE
#endif
#ifdef LAPD_CHECKED
#undef LAPD_CHECKED /* each call looks at its pointers by itself */
#if !defined(__STDC_HOSTED__) || __STDC_HOSTED__
#define LAPD_SAYS_WHY /* before it ends the program */
#endif
#endif
#include "lapd.h"
