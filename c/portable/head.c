/* ---- Numbers, and a machine's memory ------------------------------------------------------------------------------ */

#ifndef LAPD_BIG_END_FIRST
#ifndef __BYTE_ORDER__
#error "LAPD_BIG_END_FIRST: 1 where the high octet of a number lies first in memory, else 0"
#endif
#define LAPD_BIG_END_FIRST (__BYTE_ORDER__ == __ORDER_BIG_ENDIAN__)
#endif

#include <stdbool.h>
#include <stddef.h>
#include <stdint.h>
#if !defined(__STDC_HOSTED__) || __STDC_HOSTED__ || defined(LAPD_MALLOC)
#include <stdlib.h>
#include <string.h>
#else
/* What a program without a C library gives. */
#ifdef __GNUC__
__attribute__((noreturn))
#endif
void abort(void);
void *memcpy(void *to, const void *from, size_t count);
void *memmove(void *to, const void *from, size_t count);
void *memset(void *to, int octet, size_t count);
#ifdef __GNUC__ /* Some octets are copied without a call. */
#define memcpy __builtin_memcpy
#define memset __builtin_memset
#endif
#endif

typedef uint8_t u8;
typedef int8_t s8;
typedef uint16_t u16;
typedef int16_t s16;
typedef uint32_t u32;
typedef int32_t s32;
typedef uint64_t u64;
typedef int64_t s64;

#if defined(__GNUC__)
#define UNLIKELY(x) __builtin_expect(!!(x), 0)
#else
#define UNLIKELY(x) (x)
#endif

/* What cannot be, by the proofs, ends the program. */
#ifdef LAPD_SAYS_WHY
#include <stdio.h>
#define WHY "lapd.c: an access outside of a card or a clock. Is a copy of one used that was freed, or were its fields changed?\n"
#define TRAP() ((void)fputs(WHY, stderr), abort())
#else
#define TRAP() abort()
#endif
#define UNREACHABLE TRAP()
#define FUNC_EPILOGUE

/* A place in the memory of the module, whose addresses have 64 bits, of which 32 are used. */
typedef size_t place;

/* Only the place of a load or a store is tested, not how far ahead of it it goes: that is less than AHEAD, and it takes WIDEST
 * octets at most. So what passes the test stays inside the block that was allocated, which has BEHIND octets more. How large
 * the memory is, LIMIT says. */
enum { BEHIND = AHEAD + WIDEST };
#ifdef LAPD_UNTESTED
#define TEST(at) (void)most
#define TEST_BLOCK(at, count) (void)0
#else
#define TEST(at) do { if (UNLIKELY((at) > most)) TRAP(); } while (0)
#define TEST_BLOCK(at, count) do { if (UNLIKELY((u64)(at) + (count) > OWN(instance)->octets)) TRAP(); } while (0)
#endif

/* A number of the module's memory, which has the low octet first, as the processor has it, and back. */
#if LAPD_BIG_END_FIRST
#define TURNED_8(x) (x)
#define TURNED_16(x) ((u16)((u16)(x) << 8 | (u16)(x) >> 8))
#define TURNED_32(x) ((u32)(x) << 24 | ((u32)(x) & 0xFF00) << 8 | ((u32)(x) >> 8 & 0xFF00) | (u32)(x) >> 24)
#define TURNED_64(x) ((u64)TURNED_32((u32)(x)) << 32 | TURNED_32((u32)((u64)(x) >> 32)))
#else
#define TURNED_8(x) (x)
#define TURNED_16(x) (x)
#define TURNED_32(x) (x)
#define TURNED_64(x) (x)
#endif

/* What an access may reach from its place. A compiler then has one address for all that is reached from there. */
typedef struct {
    u8 octets[AHEAD + WIDEST];
} reach;

#define AT(at, ahead) &reached(instance, LIMIT, at)->octets[ahead]

/* A place that is a multiple of 2, 4 or 8, as the kit's compiler says; a machine's memory begins at a multiple of 8. */
#ifdef __GNUC__
#define MULTIPLE(of, place) ((of) > 1 ? __builtin_assume_aligned(place, of) : (place))
#define ALIGNED __attribute__((aligned(8)))
#else
#define MULTIPLE(of, place) (place)
#define ALIGNED
#endif

/* Loads and stores: so many bits of memory, read as a signed or unsigned number, as a value of the machine. Where a name ends with
 * a number, the place is a multiple of that. */
#define DEFINE_LOAD(name, bits, as, value, of)                  \
    static inline value name(const u8 *from) {                  \
        u##bits octets;                                         \
        memcpy(&octets, MULTIPLE(of, from), sizeof octets);     \
        return (value)(as)TURNED_##bits(octets);                \
    }
#define DEFINE_STORE(name, bits, value, of)                     \
    static inline void name(u8 *to, value number) {             \
        u##bits octets = (u##bits)number;                       \
        octets = TURNED_##bits(octets);                         \
        memcpy(MULTIPLE(of, to), &octets, sizeof octets);       \
    }
