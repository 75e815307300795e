/*
 * start.c: how a test begins on QEMU's Cortex-M4 (mps2-an386) over newlib, whose files are the host's (semihosting). For tests
 * alone; newlib's own beginning knows of no such board.
 */
#include <errno.h>
#include <stddef.h>
#include <stdint.h>
#include <stdlib.h>

extern uint32_t stack_end, data_from, data_begin, data_end, zeros_begin, zeros_end;
extern char heap_begin, heap_end;

void initialise_monitor_handles(void);
void begin(void);
int main(void);
void *_sbrk(ptrdiff_t octets);
void _init(void);
void _fini(void);

void _init(void) {}
void _fini(void) {}

static void fault(void) {
    _Exit(3);
}

typedef void vector(void);
__attribute__((section(".vectors"), used)) static vector *const vectors[] = {(vector *)&stack_end, begin, fault, fault, fault, fault, fault};

void *_sbrk(ptrdiff_t octets) {
    static char *end = &heap_begin;
    if (octets > &heap_end - end) {
        errno = ENOMEM;
        return (void *)-1;
    }
    end += octets;
    return end - octets;
}

void begin(void) {
    const uint32_t *from = &data_from;
    for (uint32_t *to = &data_begin; to < &data_end;)
        *to++ = *from++;
    for (uint32_t *to = &zeros_begin; to < &zeros_end;)
        *to++ = 0;
    initialise_monitor_handles();
    exit(main());
}
