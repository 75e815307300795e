/*
 * channels.c: examples/c/dahdi.c against libpri, the ISDN stack of the Asterisk PBX, over two channels of DAHDI that are each
 * other's end, in a virtual machine. dahdi plays each of its four sides, and libpri the other one. The link comes up. libpri calls,
 * its call is connected, and it hangs up; except as the network of a bus, where it would call by unit data. Then libpri's span
 * is taken away and comes again: dahdi has to lose layer 1, to find it, and to establish its link anew.
 *
 * A line for each side: `good` or `BAD`, and what was. For tests/kernel/run alone.
 */
#define _GNU_SOURCE

#include <errno.h>
#include <fcntl.h>
#include <poll.h>
#include <signal.h>
#include <stdio.h>
#include <string.h>
#include <sys/wait.h>
#include <unistd.h>

#include "libpri_terminal.h"
#include "spans.h"

enum { PATIENCE_MS = 20000, LONGEST_TOLD = 1 << 16, EVENT_WAITS = 500 };

typedef struct {
    const char *word;
    struct pri *(*begin)(int file, pri_io_cb take, pri_io_cb give); /* libpri as the other side */
    bool calls;
} side;

static int line = -1; /* libpri's channel */
static struct pri *peer;
static unsigned answered, cleared;

/* ---- libpri ------------------------------------------------------------------------------------------------------- */

/* The user's side of a primary rate access. */
static struct pri *libpri_user(int file, pri_io_cb take, pri_io_cb give) {
    return pri_new_cb(file, PRI_CPE, PRI_SWITCH_EUROISDN_E1, take, give, NULL);
}

static const side sides[] = {
    {"nt", libpri_terminal, true}, {"te", libpri_access, false}, {"nt-e1", libpri_user, true}, {"te-e1", libpri_network, true}};
enum { SIDES = sizeof sides / sizeof *sides };

static int take(struct pri *pri, void *octets, int room) {
    (void)pri;
    ssize_t length = read(line, octets, (size_t)room);
    while (length < 0 && errno == EVENT_WAITS && span_event(line) != 0)
        length = read(line, octets, (size_t)room);
    return length < 0 ? 0 : (int)length;
}

static int give(struct pri *pri, void *octets, int length) {
    (void)pri;
    while (write(line, octets, (size_t)length) < 0 && errno == EVENT_WAITS && span_event(line) != 0)
        continue;
    return length;
}

static void happened(const pri_event *event) {
    if (event == NULL)
        return;
    answered += event->e == PRI_EVENT_ANSWER;
    cleared += event->e == PRI_EVENT_HANGUP || event->e == PRI_EVENT_HANGUP_ACK;
    if (event->e == PRI_EVENT_HANGUP)
        pri_hangup(peer, event->hangup.call, 16);
}

/* libpri goes on for some milliseconds. */
static void go_on(void) {
    struct pollfd there = {.fd = line, .events = POLLIN | POLLPRI, .revents = 0};
    if (line < 0) {
        poll(NULL, 0, 10);
        return;
    }
    if (poll(&there, 1, 10) > 0)
        happened(pri_check_event(peer));
    happened(pri_schedule_run(peer));
}

/* ---- What dahdi tells --------------------------------------------------------------------------------------------- */

static char told[LONGEST_TOLD];

static void read_told(void) {
    int file = open("/told", O_RDONLY | O_CLOEXEC);
    ssize_t length = file < 0 ? 0 : read(file, told, sizeof told - 1);
    told[length > 0 ? length : 0] = 0;
    close(file);
}

/* How often dahdi has told this. */
static unsigned times(const char *words) {
    unsigned count = 0;
    read_told();
    for (const char *at = told; (at = strstr(at, words)) != NULL; at++)
        count++;
    return count;
}

/* Until dahdi has told this so often, or not for too long. */
static bool wait_for(const char *words, unsigned wanted) {
    for (uint64_t end = monotonic() + PATIENCE_MS; monotonic() < end; go_on())
        if (times(words) >= wanted)
            return true;
    printf("channels: dahdi tells \"%s\" %u times, and not %u\n", words, times(words), wanted);
    return false;
}

static bool wait_until(const unsigned *count, unsigned wanted, const char *what) {
    for (uint64_t end = monotonic() + PATIENCE_MS; *count < wanted && monotonic() < end;)
        go_on();
    if (*count < wanted)
        printf("channels: %s\n", what);
    return *count >= wanted;
}

/* ---- A side ------------------------------------------------------------------------------------------------------- */

static pid_t start(const char *path, const char *word) {
    unlink("/told");
    pid_t child = fork();
    if (child == 0) {
        dup2(open("/told", O_RDWR | O_CREAT | O_TRUNC, 0644), STDERR_FILENO);
        execl("/dahdi", "dahdi", path, word, (char *)NULL);
        perror("channels: dahdi");
        _exit(127);
    }
    return child;
}

static bool ends(pid_t child) {
    int status = 1;
    kill(child, SIGTERM);
    return waitpid(child, &status, 0) == child && status == 0;
}

/* libpri's span is there, and libpri begins anew. */
static bool peer_begins(const side *it) {
    char path[64];
    if (!span_begins(SPAN_PEERS, path, sizeof path) || (line = span_open(path)) < 0)
        return false;
    peer = it->begin(line, take, give);
    return peer != NULL;
}

static bool peer_ends(void) {
    close(line);
    line = -1;
    return span_ends(SPAN_PEERS);
}

/* The link is up so often until now, and a call goes, if libpri calls on this side. */
static bool talk(const side *it, unsigned ups) {
    unsigned calls = answered;
    q931_call *call = it->calls ? libpri_calls(peer) : NULL;
    if (!wait_for("0 establish-", ups))
        return false;
    if (call == NULL)
        return true;
    if (!wait_until(&answered, calls + 1, "the call is not answered"))
        return false;
    calls = cleared;
    pri_hangup(peer, call, 16);
    return wait_until(&cleared, calls + 1, "the call is not cleared");
}

/* At primary rate libpri wants its link first. */
static bool play(const side *it, const char *path) {
    if (!peer_begins(it))
        return false;
    pid_t child = start(path, it->word);
    bool good = wait_for("0 layer 1 is there", 1) && (strlen(it->word) == 2 || wait_for("0 establish-", 1)) && talk(it, 1);
    unsigned ups = times("0 establish-");
    good = peer_ends() && good && wait_for("0 layer 1 is lost", 1) && peer_begins(it) && wait_for("0 layer 1 is there", 2)
           && (strlen(it->word) == 2 || wait_for("0 establish-", ups + 1)) && talk(it, ups + 1);
    ups = times("0 establish-");
    good = ends(child) && good;
    printf("%s dahdi %s: %u up, layer 1 was lost and found, %u calls, %u cleared\n", good ? "good" : "BAD", it->word, ups, answered,
           cleared);
    if (!good)
        puts(told);
    return (line < 0 || peer_ends()) && good;
}

int main(void) {
    char path[64];
    bool good = true;
    setvbuf(stdout, NULL, _IOLBF, 0);
    if (!spans_load())
        return 1;
    for (int i = 0; good && i < SIDES; i++) {
        answered = cleared = 0;
        good = span_begins(SPAN_OURS, path, sizeof path) && play(&sides[i], path) && span_ends(SPAN_OURS);
    }
    return !good;
}
