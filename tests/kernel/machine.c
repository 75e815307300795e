/* machine.c: the start, modules, time and end of a virtual machine. See machine.h. */
#define _GNU_SOURCE

#include "machine.h"

#include <errno.h>
#include <fcntl.h>
#include <net/if.h>
#include <netinet/in.h>
#include <stdio.h>
#include <string.h>
#include <sys/ioctl.h>
#include <sys/klog.h>
#include <sys/mount.h>
#include <sys/reboot.h>
#include <sys/socket.h>
#include <sys/stat.h>
#include <sys/syscall.h>
#include <time.h>
#include <unistd.h>

enum { MOST_ERRORS = 12, READ_ALL = 3, CLEAR = 5 }; /* of klogctl */

static bool is_ok(int result, const char *what) {
    if (result < 0)
        printf("machine: %s: %s\n", what, strerror(errno));
    return result >= 0;
}

static void loopback_up(void) {
    struct ifreq request = {.ifr_name = "lo"};
    int any = socket(AF_INET, SOCK_DGRAM | SOCK_CLOEXEC, 0);
    request.ifr_flags = IFF_UP | IFF_RUNNING;
    is_ok(ioctl(any, SIOCSIFFLAGS, &request), "loopback");
    close(any);
}

bool machine_load(const char *file, const char *options) {
    int module = open(file, O_RDONLY | O_CLOEXEC);
    long result = module < 0 ? -1 : syscall(SYS_finit_module, module, options, 0);
    bool good = is_ok((int)result, file);
    if (module >= 0)
        close(module);
    return good;
}

bool machine_unload(const char *module) {
    return is_ok((int)syscall(SYS_delete_module, module, O_NONBLOCK), module);
}

void machine_begin(void) {
    mkdir("/dev", 0755);
    mkdir("/proc", 0755);
    mount("dev", "/dev", "devtmpfs", 0, NULL);
    mount("proc", "/proc", "proc", 0, NULL);
    int console = open("/dev/console", O_RDWR);
    for (int file = 0; console >= 0 && file < 3; file++)
        dup2(console, file);
    setvbuf(stdout, NULL, _IOLBF, 0);
    puts(""); /* what the firmware wrote has no end of line */
    klogctl(CLEAR, NULL, 0); /* what the kernel told before is not of these tests */
    loopback_up();
    machine_load("/mISDN_core.ko", "");
}

/* Whether a line of the kernel's log is an error, or worse. */
static bool is_error(const char *line) {
    return line[0] == '<' && '0' <= line[1] && line[1] <= '3' && line[2] == '>';
}

void machine_end(void) {
    static char log[1 << 17];
    int length = klogctl(READ_ALL, log, sizeof log - 1), told = 0;
    log[length > 0 ? length : 0] = 0;
    for (char *line = strtok(log, "\n"); line != NULL && told < MOST_ERRORS; line = strtok(NULL, "\n"))
        if (is_error(line)) {
            printf("kernel: %s\n", line + 3);
            told++;
        }
    fflush(stdout);
    sync();
    reboot(RB_POWER_OFF);
}

uint64_t machine_now(void) {
    struct timespec time;
    clock_gettime(CLOCK_MONOTONIC, &time);
    return (uint64_t)time.tv_sec * 1000 + (uint64_t)time.tv_nsec / 1000000;
}

void machine_wait(unsigned milliseconds) {
    struct timespec time = {.tv_sec = milliseconds / 1000, .tv_nsec = (long)(milliseconds % 1000) * 1000000};
    while (nanosleep(&time, &time) < 0 && errno == EINTR)
        continue;
}
