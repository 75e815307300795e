/*
 * guest.c: the first process of a virtual machine with the kernel's SCTP, whose root is that of its host, read only, with a layer
 * over it that is gone with the machine. It loads the modules that /modules names, has two devices of mISDN and two spans of
 * DAHDI, each pair one line, runs the words of /job by a shell, and powers off. For tests/gateway alone.
 */
#define _GNU_SOURCE

#include <errno.h>
#include <fcntl.h>
#include <stdio.h>
#include <string.h>
#include <sys/mount.h>
#include <sys/stat.h>
#include <sys/wait.h>
#include <unistd.h>

#include "l1oip.h"
#include "machine.h"
#include "spans.h"

enum { MOST_JOB = 4096, DEVICES = 2 };

static char job[MOST_JOB];

static bool is_ok(int result, const char *what) {
    if (result < 0)
        printf("guest: %s: %s\n", what, strerror(errno));
    return result >= 0;
}

static bool read_job(void) {
    int file = open("/job", O_RDONLY | O_CLOEXEC);
    return is_ok(file, "/job") && is_ok((int)read(file, job, sizeof job - 1), "/job");
}

/* Each line is the file of a module. */
static void load_modules(void) {
    char name[100];
    FILE *file = fopen("/modules", "r");
    while (file != NULL && fscanf(file, "%99s", name) == 1)
        machine_load(name, "");
}

static bool is_mounted(const char *what, const char *at, const char *kind, unsigned long flags, const char *words) {
    return is_ok(mount(what, at, kind, flags, words), at);
}

static bool has_root(void) {
    static const char *const folders[] = {"/low", "/over", "/root"};
    for (size_t i = 0; i < sizeof folders / sizeof *folders; i++)
        mkdir(folders[i], 0755);
    return is_mounted("host", "/low", "9p", MS_RDONLY, "trans=virtio,version=9p2000.L,msize=262144,cache=loose")
           && is_mounted("over", "/over", "tmpfs", 0, NULL) && mkdir("/over/upper", 0755) == 0 && mkdir("/over/work", 0755) == 0
           && is_mounted("root", "/root", "overlay", 0, "lowerdir=/low,upperdir=/over/upper,workdir=/over/work")
           && is_mounted("/dev", "/root/dev", NULL, MS_MOVE, NULL) && is_mounted("proc", "/root/proc", "proc", 0, NULL)
           && is_mounted("sys", "/root/sys", "sysfs", 0, NULL) && is_mounted("run", "/root/run", "tmpfs", 0, NULL)
           && is_ok(chroot("/root"), "chroot") && chdir("/") == 0;
}

static void add_lines(void) {
    char path[64];
    if (l1oip_load(DEVICES, false, true) && spans_load())
        for (int span = SPAN_OURS; span <= SPAN_PEERS; span++)
            if (span_begins(span, path, sizeof path))
                printf("guest: span %d is %s\n", span, path);
}

int main(void) {
    int status = -1;
    machine_begin();
    load_modules();
    add_lines();
    if (read_job() && has_root()) {
        pid_t child = fork();
        if (child == 0) {
            execl("/bin/bash", "bash", "-c", job, (char *)NULL);
            _exit(127);
        }
        waitpid(child, &status, 0);
    }
    printf("guest: the job ended, %d\n", status);
    machine_end();
    return 1;
}
