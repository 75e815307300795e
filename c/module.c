/*
 * module.c: what a WebAssembly module made of a static library of this repository has instead of a C library: the functions
 * of memory that the library asks for, over the module's own memory, from where its data end.
 *
 * tools/vithrynel/wasm.py compiles it, for wasm64, freestanding, by the kit's clang, which has no headers. The heap is that of
 * blocks.h. Where no block fits, the memory grows, unless its owner has said where the heap lies, or its engine refuses that.
 *
 *     module_take    a place for what a caller hands over, of so many octets, which are 0; 0 where there is none
 *     module_give    takes it back
 *     module_heap    the heap lies between these addresses, and does not grow: to be called before all else, or never
 */
typedef __SIZE_TYPE__ size_t;
typedef __UINTPTR_TYPE__ uintptr_t;
typedef __UINT32_TYPE__ uint32_t;
typedef __UINT64_TYPE__ uint64_t;
typedef _Bool bool;
enum { false, true };
#define NULL ((void *)0)
#define UINT32_MAX 0xFFFFFFFFu

typedef struct {
    bool there;
    void *at;
} rattle_tried;

rattle_tried rattle_alloc(size_t octets, size_t alignment);

#include "blocks.h"

/* No memory of 32-bit addresses has more pages. */
enum { PAGE = 65536, MOST_PAGES = 65536, MOST = 0x7FFFFFFF };

extern char __heap_base[];
static unit *first, *end;
static bool is_fixed;

/* One free block between these addresses. */
static void set_up(uintptr_t from, uintptr_t to) {
    first = (unit *)((from + UNIT - 1) / UNIT * UNIT);
    end = (unit *)(to / UNIT * UNIT);
    if (end > first)
        lay(first, end);
    else
        end = first;
}

void module_heap(uintptr_t from, uintptr_t to) {
    is_fixed = true;
    set_up(from, to);
}

/* Makes room for a block at the end. A refusal is answered as -1 of 32 or of 64 bits: the module is compiled for addresses of
 * 64 bits and turned to 32. */
static bool grow(uint32_t units) {
    size_t pages = ((size_t)units + 1) * UNIT / PAGE + 1;
    if (is_fixed || __builtin_wasm_memory_grow(0, pages) > MOST_PAGES)
        return false;
    unit *added = end;
    end += pages * (PAGE / UNIT);
    lay(added, end);
    return true;
}

static unit *block_of(size_t octets) {
    if (octets > MOST)
        return NULL;
    if (first == NULL)
        set_up((uintptr_t)__heap_base, __builtin_wasm_memory_size(0) * PAGE);
    unit *found;
    do
        found = fit(first, end, units_of(octets));
    while (found == NULL && grow(units_of(octets)));
    return found;
}

void *module_take(size_t octets) {
    unit *found = block_of(octets);
    return found != NULL ? __builtin_memset(found + 1, 0, octets) : NULL;
}

void module_give(void *at) {
    rattle_dealloc(at);
}

rattle_tried rattle_alloc(size_t octets, size_t alignment) {
    return answer(alignment <= UNIT ? block_of(octets) : NULL);
}

/* Instructions of WebAssembly, each of these. */
void *memcpy(void *to, const void *from, size_t count) {
    return __builtin_memcpy(to, from, count);
}

void *memmove(void *to, const void *from, size_t count) {
    return __builtin_memmove(to, from, count);
}

void *memset(void *to, int octet, size_t count) {
    return __builtin_memset(to, octet, count);
}

/* A product of 128 bits, by which a compiler sees whether one of 64 bits is too large. */
unsigned __int128 __multi3(unsigned __int128 a, unsigned __int128 b) {
    const uint64_t low_half = 0xFFFFFFFF;
    uint64_t a_low = (uint64_t)a, b_low = (uint64_t)b;
    uint64_t low = (a_low & low_half) * (b_low & low_half);
    uint64_t one = (a_low >> 32) * (b_low & low_half) + (low >> 32);
    uint64_t other = (a_low & low_half) * (b_low >> 32) + (one & low_half);
    uint64_t high = (a_low >> 32) * (b_low >> 32) + (one >> 32) + (other >> 32);
    high += (uint64_t)(a >> 64) * b_low + a_low * (uint64_t)(b >> 64);
    return (unsigned __int128)high << 64 | (other << 32 | (low & low_half));
}
