/* What lies at a place, which is tested. */
static inline reach *reached(const machine *instance, u32 most, place at) {
    TEST(at);
    return (reach *)((uintptr_t)MEMORY(instance) + at);
}

/* What lies at a place of a table, which is tested. */
static inline const u8 *within(const u8 *table, u32 most, place at) {
    TEST(at);
    return table + at;
}

#define IN(table, at) within(table, sizeof(table) - WIDEST - 1, at)

DEFINE_LOAD(i32_load, 32, u32, u32, 1)
DEFINE_LOAD(i32_load_4, 32, u32, u32, 4)
DEFINE_LOAD(i32_load8_s, 8, s8, u32, 1)
DEFINE_LOAD(i32_load8_u, 8, u8, u32, 1)
DEFINE_LOAD(i32_load16_s, 16, s16, u32, 1)
DEFINE_LOAD(i32_load16_s_2, 16, s16, u32, 2)
DEFINE_LOAD(i32_load16_u, 16, u16, u32, 1)
DEFINE_LOAD(i32_load16_u_2, 16, u16, u32, 2)
DEFINE_LOAD(i64_load, 64, u64, u64, 1)
DEFINE_LOAD(i64_load_8, 64, u64, u64, 8)
DEFINE_LOAD(i64_load8_s, 8, s8, u64, 1)
DEFINE_LOAD(i64_load8_u, 8, u8, u64, 1)
DEFINE_LOAD(i64_load16_s, 16, s16, u64, 1)
DEFINE_LOAD(i64_load16_s_2, 16, s16, u64, 2)
DEFINE_LOAD(i64_load16_u, 16, u16, u64, 1)
DEFINE_LOAD(i64_load16_u_2, 16, u16, u64, 2)
DEFINE_LOAD(i64_load32_s, 32, s32, u64, 1)
DEFINE_LOAD(i64_load32_s_4, 32, s32, u64, 4)
DEFINE_LOAD(i64_load32_u, 32, u32, u64, 1)
DEFINE_LOAD(i64_load32_u_4, 32, u32, u64, 4)
DEFINE_STORE(i32_store, 32, u32, 1)
DEFINE_STORE(i32_store_4, 32, u32, 4)
DEFINE_STORE(i32_store8, 8, u32, 1)
DEFINE_STORE(i32_store16, 16, u32, 1)
DEFINE_STORE(i32_store16_2, 16, u32, 2)
DEFINE_STORE(i64_store, 64, u64, 1)
DEFINE_STORE(i64_store_8, 64, u64, 8)
DEFINE_STORE(i64_store8, 8, u64, 1)
DEFINE_STORE(i64_store16, 16, u64, 1)
DEFINE_STORE(i64_store16_2, 16, u64, 2)
DEFINE_STORE(i64_store32, 32, u64, 1)
DEFINE_STORE(i64_store32_4, 32, u64, 4)

static inline void memory_fill(machine *instance, u32 at, u32 octet, u32 count) {
    TEST_BLOCK(at, count);
    memset(MEMORY(instance) + at, (int)(octet & 0xFF), count);
}

static inline void memory_copy(machine *instance, machine *same, u32 to, u32 from, u32 count) {
    (void)same;
    TEST_BLOCK(to, count);
    TEST_BLOCK(from, count);
    memmove(MEMORY(instance) + to, MEMORY(instance) + from, count);
}

/* ---- Instructions of WebAssembly that C has not ------------------------------------------------------------------- */

#if defined(__GNUC__)
#define I32_CLZ(x) ((x) ? (u32)__builtin_clzl(x) - 8 * ((u32)sizeof(long) - 4) : 32)
#define I64_CLZ(x) ((x) ? (u32)__builtin_clzll(x) : 64)
#define I32_CTZ(x) ((x) ? (u32)__builtin_ctzl(x) : 32)
#define I64_CTZ(x) ((x) ? (u32)__builtin_ctzll(x) : 64)
#define I32_POPCNT(x) ((u32)__builtin_popcountl(x))
#define I64_POPCNT(x) ((u32)__builtin_popcountll(x))
#else
static inline u32 I64_POPCNT(u64 x) {
    u32 count = 0;
    for (; x != 0; x &= x - 1)
        count++;
    return count;
}
static inline u32 I64_CTZ(u64 x) { return x != 0 ? I64_POPCNT((x & (0 - x)) - 1) : 64; }
static inline u32 I64_CLZ(u64 x) {
    u32 count = 64;
    for (; x != 0; x >>= 1)
        count--;
    return count;
}
#define I32_POPCNT(x) I64_POPCNT(x)
#define I32_CTZ(x) ((x) ? I64_CTZ(x) : 32)
#define I32_CLZ(x) (I64_CLZ(x) - 32)
#endif

#define DIV_S(value, least, x, y) ((y) == 0 || ((x) == (least) && (y) == -1) ? (TRAP(), (value)0) : (value)((x) / (y)))
#define REM_S(value, least, x, y) \
    ((y) == 0 ? (TRAP(), (value)0) : (x) == (least) && (y) == -1 ? (value)0 : (value)((x) % (y)))
#define I32_DIV_S(x, y) DIV_S(u32, INT32_MIN, (s32)(x), (s32)(y))
#define I64_DIV_S(x, y) DIV_S(u64, INT64_MIN, (s64)(x), (s64)(y))
#define I32_REM_S(x, y) REM_S(u32, INT32_MIN, (s32)(x), (s32)(y))
#define I64_REM_S(x, y) REM_S(u64, INT64_MIN, (s64)(x), (s64)(y))
#define DIV_U(x, y) ((y) == 0 ? (TRAP(), (x)) : (x) / (y))
#define REM_U(x, y) ((y) == 0 ? (TRAP(), (x)) : (x) % (y))
#define I32_ROTL(x, y) ((x) << ((y) & 31) | (x) >> ((32 - ((y) & 31)) & 31))
#define I64_ROTL(x, y) ((x) << ((y) & 63) | (x) >> ((64 - ((y) & 63)) & 63))
#define I32_ROTR(x, y) ((x) >> ((y) & 31) | (x) << ((32 - ((y) & 31)) & 31))
#define I64_ROTR(x, y) ((x) >> ((y) & 63) | (x) << ((64 - ((y) & 63)) & 63))
