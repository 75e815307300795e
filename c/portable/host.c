/* ---- What the program asks of its system: POSIX's read, write, open and close, and the words of its command line --- */

#include <errno.h>
#include <fcntl.h>
#include <signal.h>
#include <stdio.h>
#include <unistd.h>

static char **words;
static int word_count;

static inline u32 host_rattle_errno(machine *instance) {
    (void)instance;
    return (u32)errno;
}

static inline void host_rattle_set_errno(machine *instance, u32 error) {
    (void)instance;
    errno = (int)error;
}

static inline u64 host_read(machine *instance, u32 from, u64 at, u64 count) {
    TEST_BLOCK(at, count);
    return (u64)(s64)read((int)from, instance->data + at, (size_t)count);
}

static inline u64 host_write(machine *instance, u32 to, u64 at, u64 count) {
    TEST_BLOCK(at, count);
    return (u64)(s64)write((int)to, instance->data + at, (size_t)count);
}

/* Opens the file of a path, which ends with a 0, to be read: the program asks for nothing else. */
static inline u32 host_open(machine *instance, u64 path, u32 how, u64 more) {
    TEST_BLOCK(path, 1);
    (void)how;
    (void)more;
    return (u32)open((const char *)(instance->data + path), O_RDONLY);
}

static inline u32 host_close(machine *instance, u32 of) {
    (void)instance;
    return (u32)close((int)of);
}

/* Puts a word of the command line, and answers its length: -1 where there is none, and -2 where it does not fit. */
static inline u64 host_rattle_arg(machine *instance, u64 which, u64 at, u64 room) {
    TEST_BLOCK(at, room);
    if (which >= (u64)word_count || words[which] == NULL)
        return (u64)-1;
    size_t length = strlen(words[which]);
    memcpy(instance->data + at, words[which], length < room ? length : (size_t)room);
    return length <= room ? length : (u64)-2;
}

/* The program asks once that a closed pipe be a write that fails. */
static inline u64 host___sysv_signal(machine *instance, u32 number, u64 what) {
    (void)instance;
    (void)number;
    (void)what;
#ifdef SIGPIPE
    signal(SIGPIPE, SIG_IGN);
#endif
    return 0;
}
