/* Preloaded to a program, it counts the program's allocations and refuses the one that REFUSED_ALLOCATION numbers, from
   1 on, or all from the one on that REFUSED_FROM numbers. At the end it writes their number to descriptor 9 and that of the
   blocks given back to descriptor 8, where these are open. It needs no headers. */
typedef unsigned long size;
void *__libc_malloc(size), *__libc_calloc(size, size), *__libc_realloc(void *, size), *__libc_memalign(size, size);
void __libc_free(void *);
char *getenv(const char *);
long atol(const char *);
int dprintf(int, const char *, ...);
static long count, freed, refused, refused_from;
static int is_refused(void) { return ++count == refused || (refused_from && count >= refused_from); }
__attribute__((constructor)) static void begin(void) {
    char *one = getenv("REFUSED_ALLOCATION"), *all = getenv("REFUSED_FROM");
    refused = one ? atol(one) : 0, refused_from = all ? atol(all) : 0, count = 0;
}
__attribute__((destructor)) static void end(void) {
    refused = refused_from = 0, dprintf(9, "%ld\n", count), dprintf(8, "%ld\n", freed);
}
void *malloc(size n) { return is_refused() ? 0 : __libc_malloc(n); }
void *calloc(size n, size each) { return is_refused() ? 0 : __libc_calloc(n, each); }
void *realloc(void *at, size n) {
    void *given = is_refused() ? 0 : __libc_realloc(at, n);
    freed += at && given;
    return given;
}
void *aligned_alloc(size to, size n) { return is_refused() ? 0 : __libc_memalign(to, n); }
int posix_memalign(void **at, size to, size n) { return is_refused() || !(*at = __libc_memalign(to, n)) ? 12 : 0; }
void free(void *at) { freed += at != 0, __libc_free(at); }
