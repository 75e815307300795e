/* Where what is handed over lies in a machine's memory: the handle, whatever a call has, and its report. What a call has that tells
 * no report may reach into the report's room. */
enum { HANDLE = PLACES, OTHER = PLACES + 16, REPORT = OTHER + OTHER_OCTETS, HEAP = REPORT + REPORT_OCTETS };

/* So many octets of the caller's, or as many of them as say all that a call asks. */
static inline size_t at_most(size_t count, size_t most) {
    return count < most ? count : most;
}

/* Most frames have four octets. */
static inline void copy(u8 *to, const u8 *from, size_t count) {
    if (count == 4)
        memcpy(to, from, 4);
    else if (count != 0)
        memcpy(to, from, count);
}

/* A card's machine. It is tested here that all below its heap is there; no place in it is tested again. */
static inline machine *machine_of(void *at) {
    machine *instance = at;
    TEST_BLOCK(0, HEAP);
    return instance;
}

#define HANDED const u32 limit = HEAP; (void)limit
