#define OWN(instance) (instance)
#define MEMORY(instance) (instance)->data
/* The program's memory grows. So its size is looked up at each access. */
#define FUNC_PROLOGUE (void)instance
#define LIMIT (u32)instance->octets
#define LOAD_DATA(memory, at, octets, count) memcpy(MEMORY(instance) + (at), octets, count)

enum { PAGE = 65536, MOST_PAGES = 65535 };

/* Has room for so many octets, if there is memory; they need not be zeros. */
static bool has_room(machine *instance, u64 octets) {
    if (octets <= instance->room)
        return true;
    u8 *data = octets <= (size_t)-1 - BEHIND ? realloc(instance->data, (size_t)octets + BEHIND) : NULL;
    if (data == NULL)
        return false;
    instance->data = data;
    instance->room = octets;
    return true;
}

/* So many pages more, of zeros: how many there were before, or 2^32 - 1. Room is made for twice as many, so that growing page
 * by page copies each a few times at most. */
static inline u32 wasm_rt_grow_memory(machine *instance, u32 pages) {
    u32 before = (u32)(instance->octets / PAGE);
    u64 octets = instance->octets + (u64)pages * PAGE;
    if (pages > MOST_PAGES - before)
        return 0xFFFFFFFF;
    if (octets > instance->room && !has_room(instance, 2 * octets) && !has_room(instance, octets))
        return 0xFFFFFFFF;
    memset(instance->data + instance->octets, 0, (size_t)(octets - instance->octets) + BEHIND);
    instance->octets = octets;
    return before;
}
