/* A machine is told by where its memory begins. What it has beside lies before that: so one pointer leads to both. */
#define OWN(instance) (&((own *)(void *)(instance) - 1)->of)
#define MEMORY(instance) (instance)
/* A card's memory does not grow: what it needs is known at its start. So its size is looked up once in each function. */
#define FUNC_PROLOGUE const u32 limit = OWN(instance)->octets; (void)limit
#define LIMIT limit
#define LOAD_DATA(memory, at, octets, count) memcpy(MEMORY(instance) + (at), octets, count)

static inline u32 wasm_rt_grow_memory(machine *instance, u32 pages) {
    (void)instance;
    (void)pages;
    return 0xFFFFFFFF;
}
