/* Preloaded to a program, it makes standard input and standard output fail, and gives and takes little at a time.

   - FAILING_READ and FAILING_WRITE number the call on descriptor 0, or on descriptor 1, that fails, from 1 on. It fails
     once, with the error that FAILING_BY numbers (without it EIO; 0: it answers 0, and no octet has moved).
   - PIECE is how many octets a call gives or takes at most.

   At the end it writes the numbers of these calls to descriptor 9, where that is open. It needs no headers. */
typedef unsigned long size;
typedef long answer;
answer __read(int, void *, size), __write(int, const void *, size);
int *__errno_location(void);
char *getenv(const char *);
long atol(const char *);
int dprintf(int, const char *, ...);
static long reads, writes, failing_read, failing_write, failing_by, piece;
static long number(const char *name, long otherwise) {
    char *it = getenv(name);
    return it ? atol(it) : otherwise;
}
__attribute__((constructor)) static void begin(void) {
    failing_read = number("FAILING_READ", 0), failing_write = number("FAILING_WRITE", 0);
    failing_by = number("FAILING_BY", 5), piece = number("PIECE", 0);
}
__attribute__((destructor)) static void end(void) { dprintf(9, "%ld %ld\n", reads, writes); }
static size cut(size n) { return piece && n > (size)piece ? (size)piece : n; }
static answer failed(void) { return failing_by ? (*__errno_location() = (int)failing_by, -1) : 0; }
answer read(int from, void *at, size n) {
    if (from != 0) return __read(from, at, n);
    return ++reads == failing_read ? failed() : __read(from, at, cut(n));
}
answer write(int to, const void *at, size n) {
    if (to != 1) return __write(to, at, n);
    return ++writes == failing_write ? failed() : __write(to, at, cut(n));
}
